//! README's example in Rust: it is the one in this folder, and it runs.

const README: &str = include_str!("../../../../README.md");

mod example {
    include!("nations.rs");

    pub fn run() -> Result<(), Box<dyn std::error::Error>> {
        main()
    }
}

#[test]
fn it_is_the_one_in_this_folder() {
    let (_, rest) = README.split_once("```rust\n").expect("README has an example in Rust");
    let (shown, _) = rest.split_once("```").expect("it ends");
    assert_eq!(shown, include_str!("nations.rs"));
}

#[test]
fn readme_is_short() {
    assert!(README.lines().count() <= 120, "{} lines", README.lines().count());
    for line in README.lines() {
        assert!(line.chars().count() <= 100, "over 100 columns: {line}");
    }
}

#[test]
fn it_runs_where_the_samples_are() {
    std::env::set_current_dir(concat!(env!("CARGO_MANIFEST_DIR"), "/../..")).expect("it is there");
    example::run().expect("the sample is accepted, and its tags and dates are good");
}
