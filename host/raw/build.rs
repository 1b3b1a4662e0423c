//! With the feature `link`, tells the linker where libpasis.a lies: the file that PASIS_ARCHIVE names, whatever it is called, or
//! target/native/libpasis.a of this repository, which `host/native pasis` makes.

use std::env;
use std::path::PathBuf;

fn main() {
    println!("cargo:rerun-if-env-changed=PASIS_ARCHIVE");
    if env::var_os("CARGO_FEATURE_LINK").is_none() {
        return;
    }
    let here = PathBuf::from(env::var_os("CARGO_MANIFEST_DIR").expect("cargo sets it"));
    let archive = env::var_os("PASIS_ARCHIVE").map_or(here.join("../../target/native/libpasis.a"), PathBuf::from);
    println!("cargo:rerun-if-changed={}", archive.display());
    let (Some(folder), Some(name), true) = (archive.parent(), archive.file_name(), archive.is_file()) else {
        eprintln!("There is no library {}.", archive.display());
        eprintln!("Run host/native pasis, or set PASIS_ARCHIVE to the path of a libpasis.a.");
        std::process::exit(1);
    };
    println!("cargo:rustc-link-search=native={}", folder.display());
    println!("cargo:rustc-link-lib=static:+verbatim={}", name.display());
}
