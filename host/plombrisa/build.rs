//! Links the proved library, which `host/prove.sh plombrisa` writes to target/staticlib of the repository.
use std::path::Path;

fn main() {
    let repository = Path::new(env!("CARGO_MANIFEST_DIR")).join("../..");
    let library = repository.join("target/staticlib");
    println!("cargo:rerun-if-changed={}", library.join("libplombrisa.a").display());
    println!("cargo:rustc-link-search=native={}", library.display());
    println!("cargo:rustc-link-lib=static=plombrisa");
}
