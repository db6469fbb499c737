//! Links the proved library, which `make lib` leaves in the folder dist of the repository.
use std::path::Path;
use std::process::exit;

fn main() {
    let dist = Path::new(env!("CARGO_MANIFEST_DIR")).join("../../dist");
    let library = dist.join("libc51.a");
    println!("cargo:rerun-if-changed={}", library.display());
    if !library.is_file() {
        eprintln!("dist/libc51.a is missing: run 'make lib' in the repository's top folder first");
        exit(1);
    }
    println!("cargo:rustc-link-search=native={}", dist.display());
    println!("cargo:rustc-link-lib=static=c51");
}
