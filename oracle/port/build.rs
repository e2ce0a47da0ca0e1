//! Links the port's static library, which `tools/library` writes.
use std::path::Path;

fn main() {
    let folder = Path::new(env!("CARGO_MANIFEST_DIR")).join("../../target/staticlib");
    println!("cargo:rustc-link-search=native={}", folder.display());
    println!("cargo:rustc-link-lib=static=fenpiling");
    println!(
        "cargo:rerun-if-changed={}",
        folder.join("libfenpiling.a").display()
    );
}
