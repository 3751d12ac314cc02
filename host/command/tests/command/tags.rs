//! Tags that no nation is known by: a remark with what is near, and a failure where it is asked for.

use chronicle_trial::pack::{pack, Country};
use chronicle_trial::sample::worked;

use super::{about, remarked, run, told, written};

/// What is said of a tag on a page; the page stays as it is.
#[track_caller]
fn near(tag: &str, said: &str) {
    for json in [&[][..], &["--json"]] {
        let (page, err) = remarked(about("isles.atl", "page", &[&[tag], json].concat()));
        assert!(page.contains("absent"), "{page}");
        assert_eq!(err, format!("chronicle: no nation is stored under {tag}{said}\n"));
    }
    let strict = about("isles.atl", "page", &[tag, "--strict"]);
    let lax = about("isles.atl", "page", &[tag]);
    assert_eq!((strict.status, strict.out, strict.err), (1, lax.out, lax.err));
}

#[test]
fn of_a_page() {
    near("TYR", ": TYR is the first tag of IRE");
    near("ULS", ": ULS is a tag that IRE took");
    near("gbr", "; did you mean GBR?");
    near("GRB", "; did you mean GBR?");
    near("PAR", "; did you mean POR?");
    near("QQQ", ": `chronicle nations` lists them");
    // Each such tag is told once, and the others are not.
    let ran = about("isles.atl", "page", &["IRE", "QQQ", "TYR", "QQQ"]);
    assert_eq!((ran.status, ran.err.lines().count()), (0, 2), "{ran:?}");
    assert_eq!(
        told(about("isles.atl", "page", &["IRE", "--strict"])),
        "selected 1\nIRE TYR IRE 2 living\n"
    );
}

/// A country of the record that never held land is no nation.
#[test]
fn of_a_landless_country() {
    let mut campaign = worked();
    campaign.countries.push(Country { tag: *b"NOR", ..Country::default() });
    let file = written("landless.atl", &pack(&campaign));
    let (_, said) = remarked(run(&["page", file.text(), "NOR"]));
    assert_eq!(said, "chronicle: no nation is stored under NOR: the country NOR never held land\n");
}

#[test]
fn of_a_ledger() {
    let ran = about("isles.atl", "ledger", &["TYR"]);
    assert_eq!((ran.status, ran.out.as_str()), (1, ""));
    assert!(
        ran.err.ends_with("no nation is stored under TYR: TYR is the first tag of IRE\n"),
        "{ran:?}"
    );
    let ran = about("isles.atl", "ledger", &["GBX", "--json"]);
    assert!(
        ran.out.ends_with("\"found\":\"no nation is stored under GBX; did you mean GBR?\"}\n"),
        "{ran:?}"
    );
}

/// The resolver is asked of tags that were worn at some time: only one that never was is told.
#[test]
fn of_the_resolver() {
    for (command, rest) in [("resolve", &["GBX", "1500-01-01"][..]), ("initial", &["GBX"])] {
        let (out, err) = remarked(about("isles.atl", command, rest));
        assert_eq!(out, "none\n");
        assert_eq!(err, "chronicle: no nation ever went by GBX; did you mean GBR?\n");
        assert_eq!(about("isles.atl", command, &[rest, &["--strict"]].concat()).status, 1);
    }
    let strict =
        |rest: &[&str]| told(about("isles.atl", "resolve", &[rest, &["--strict"]].concat()));
    assert_eq!(strict(&["TYR", "1450-01-01"]), "IRE, stored under IRE\n");
    assert_eq!(strict(&["ULS", "1450-01-01"]), "none\n");
}

#[test]
fn of_a_timeline() {
    let (drawn, said) = remarked(about("isles.atl", "timeline", &["IRE", "TYR"]));
    assert!(drawn.contains("1 of 11 nations"), "{drawn}");
    assert_eq!(said, "chronicle: no nation is stored under TYR: TYR is the first tag of IRE\n");
    assert_eq!(about("isles.atl", "timeline", &["IRE", "TYR", "--strict"]).status, 1);
}
