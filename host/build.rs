//! Links the static library that holds the proved functions, once it is built.

use std::env;
use std::path::PathBuf;

/// What a linker looks for in vain while the library is missing, so that its error says what to do.
const BUILD_IT_FIRST: &str = "page.a_is_missing__run_bash_tools/build.sh_first";

fn main() {
    println!("cargo::rerun-if-env-changed=CHRONICLE_LIB_DIR");
    let directory = library_directory();
    let archive = directory.join("libpage.a");
    println!("cargo::rerun-if-changed={}", archive.display());
    if archive.is_file() {
        println!("cargo::rustc-link-search=native={}", directory.display());
        println!("cargo::rustc-link-lib=static=page");
        return;
    }
    // Checks and documentation link nothing, so they need no library.
    println!(
        "cargo::warning={} is missing, and what links will fail: run `bash tools/build.sh` at the \
         top of the repository, or set CHRONICLE_LIB_DIR to the folder that holds libpage.a",
        archive.display()
    );
    println!("cargo::rustc-link-lib=dylib={BUILD_IT_FIRST}");
}

fn library_directory() -> PathBuf {
    match env::var_os("CHRONICLE_LIB_DIR") {
        Some(directory) => PathBuf::from(directory),
        None => {
            let manifest = env::var_os("CARGO_MANIFEST_DIR").expect("cargo sets this");
            PathBuf::from(manifest).join("../target/staticlib")
        }
    }
}
