//! Says where libhirelog.a is: in the folder named by HIRELOG_LIB_DIR.

use std::{env, path::PathBuf, process};

const HINT: &str = "build libhirelog.a by `tools/build library`, and set HIRELOG_LIB_DIR to its \
    folder's whole path, target/staticlib of the repository (a relative path counts from rust/)";

fn main() {
    println!("cargo:rerun-if-env-changed=HIRELOG_LIB_DIR");
    let Some(named) = env::var_os("HIRELOG_LIB_DIR") else {
        fail(&format!("HIRELOG_LIB_DIR is not set; {HINT}"));
    };
    // A relative path counts from this package's folder.
    let package = PathBuf::from(env::var_os("CARGO_MANIFEST_DIR").expect("set by cargo"));
    let folder = package.join(named);
    let archive = folder.join("libhirelog.a");
    if !archive.is_file() {
        fail(&format!("HIRELOG_LIB_DIR: there is no {}; {HINT}", archive.display()));
    }
    println!("cargo:rerun-if-changed={}", archive.display());
    println!("cargo:rustc-link-search=native={}", folder.display());
}

fn fail(why: &str) -> ! {
    eprintln!("hirelog: {why}");
    process::exit(1)
}
