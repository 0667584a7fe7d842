//! Links the proved root, which `host/prove.sh roots` writes to target/staticlib of the repository.
use std::path::Path;

fn main() {
    let repository = Path::new(env!("CARGO_MANIFEST_DIR")).join("../..");
    let library = repository.join("target/staticlib");
    println!("cargo:rerun-if-changed={}", library.join("libroots.a").display());
    println!("cargo:rustc-link-search=native={}", library.display());
    println!("cargo:rustc-link-lib=static=roots");
}
