//! Puts the crate together in ../target/original: the original's files, byte for byte as they stand beside this repository, and the stand-ins for
//! what they name and the text lacks.
use std::fs;
use std::path::Path;

/// The original, from the folder of this crate.
const ORIGINAL: &str = "../../../shared/docs/src/voxelis/src";
const ORIGINAL_FILES: [&str; 4] = [
    "lib.rs",
    "core/block_id.rs",
    "interner/mod.rs",
    "utils/common.rs",
];

const STAND_INS: &str = "stand-ins";
const STAND_IN_FILES: [&str; 8] = [
    "core/mod.rs",
    "interner/consts.rs",
    "interner/hash.rs",
    "interner/macros.rs",
    "io.rs",
    "spatial.rs",
    "utils/mod.rs",
    "world.rs",
];

const ASSEMBLED: &str = "../target/original";

/// Copies a file, unless the copy is there already, and sees that the two are equal.
fn copy(from: &Path, to: &Path) {
    println!("cargo:rerun-if-changed={}", from.display());
    println!("cargo:rerun-if-changed={}", to.display());
    let bytes = fs::read(from).unwrap_or_else(|e| panic!("{}: {e}", from.display()));
    if fs::read(to).is_ok_and(|old| old == bytes) {
        return;
    }
    fs::create_dir_all(to.parent().unwrap()).unwrap();
    fs::write(to, &bytes).unwrap_or_else(|e| panic!("{}: {e}", to.display()));
    assert!(
        fs::read(to).unwrap() == bytes,
        "{} is not what was written",
        to.display()
    );
}

fn main() {
    println!("cargo:rerun-if-changed=build.rs");
    for file in ORIGINAL_FILES {
        copy(
            &Path::new(ORIGINAL).join(file),
            &Path::new(ASSEMBLED).join(file),
        );
    }
    for file in STAND_IN_FILES {
        copy(
            &Path::new(STAND_INS).join(file),
            &Path::new(ASSEMBLED).join(file),
        );
    }
}
