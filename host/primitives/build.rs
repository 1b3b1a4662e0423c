//! Gives the linker the archive that PRIMITIVES_ARCHIVE names; host/compare-primitives sets it.

fn main() {
    println!("cargo:rerun-if-env-changed=PRIMITIVES_ARCHIVE");
    let path = std::env::var("PRIMITIVES_ARCHIVE").expect("PRIMITIVES_ARCHIVE: the path of libprimitives.a");
    println!("cargo:rerun-if-changed={path}");
    println!("cargo:rustc-link-arg-bins={path}");
}
