// Links the archive that `sh tools/staticlib.sh` writes to target/staticlib of the repository.
use std::path::Path;

fn main() {
    let root = Path::new(env!("CARGO_MANIFEST_DIR")).join("../..");
    let archive = root.join("target/staticlib/libcapi.a");
    if !archive.exists() {
        panic!("{} is missing: run `sh tools/staticlib.sh` in the repository's root first", archive.display());
    }
    println!("cargo:rustc-link-search=native={}", root.join("target/staticlib").display());
    println!("cargo:rustc-link-lib=static=capi");
    println!("cargo:rerun-if-changed={}", archive.display());
}
