//! Links the proved library, libgwaunidor.a, and tells where `answers` and `watched`
//! are: in the folder that GWAUNIDOR_LIB_DIR names, else in target/border at the
//! repository's root, where the script `archive` leaves them.

use std::env;
use std::path::PathBuf;

fn main() {
    println!("cargo:rerun-if-env-changed=GWAUNIDOR_LIB_DIR");
    let package = env::var("CARGO_MANIFEST_DIR").expect("cargo names the package's folder");
    let folder = match env::var_os("GWAUNIDOR_LIB_DIR") {
        Some(named) => PathBuf::from(named),
        None => PathBuf::from(package).join("../../target/border"),
    };
    let archive = folder.join("libgwaunidor.a");
    println!("cargo:rerun-if-changed={}", archive.display());
    if !archive.is_file() {
        panic!("no {}: run second/compare/archive first", archive.display());
    }
    println!("cargo:rustc-link-search=native={}", folder.display());
    println!("cargo:rustc-link-lib=static=gwaunidor");
    let answers = folder.join("answers");
    println!("cargo:rustc-env=GWAUNIDOR_ANSWERS={}", answers.display());
    let watched = folder.join("watched");
    println!("cargo:rustc-env=GWAUNIDOR_WATCHED={}", watched.display());
}
