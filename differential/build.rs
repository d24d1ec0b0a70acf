//! Finds the folder of the original Rust and, where one is named, the archive under test.

use std::path::{Path, PathBuf};

/// The repository's root, from this folder; relative folders are taken from there.
const ROOT: &str = "..";

/// The files that the crate includes, as paths inside the folder.
const FILES: [&str; 7] = [
    "compiler/src/ast.rs",
    "compiler/src/error.rs",
    "compiler/src/validator/context.rs",
    "compiler/src/validator/diverts.rs",
    "compiler/src/validator/structure.rs",
    "compiler/src/validator/symbols.rs",
    "compiler/src/validator/variables.rs",
];

/// Fails with one readable line where a file of the original is absent.
fn main() {
    println!("cargo::rerun-if-env-changed=INK_VALIDATE_SRC");
    println!("cargo::rerun-if-changed=build.rs");
    let given = std::env::var("INK_VALIDATE_SRC").unwrap_or("../shared/docs/src".to_string());
    let folder = Path::new(ROOT).join(&given);
    for file in FILES {
        let path = folder.join(file);
        println!("cargo::rerun-if-changed={}", path.display());
        if !path.is_file() {
            println!(
                "cargo::error=the original Rust is absent: no file {file} in {given}; set INK_VALIDATE_SRC to its folder"
            );
            return;
        }
    }
    let folder = folder.canonicalize().unwrap();
    println!("cargo::rustc-env=INK_VALIDATE_FOLDER={}", folder.display());
    link_library();
}

/// Links libqaabireed.a where `QAABIREED_LIB_DIR` names its folder; without it there is no library.
fn link_library() {
    println!("cargo::rerun-if-env-changed=QAABIREED_LIB_DIR");
    println!("cargo::rustc-check-cfg=cfg(qaabireed_library)");
    let given = std::env::var_os("QAABIREED_LIB_DIR");
    let Some(given) = given.filter(|given| !given.is_empty()) else {
        return;
    };
    let Some(folder) = with_archive(&Path::new(ROOT).join(&given)) else {
        let given = given.display();
        println!("cargo::error=QAABIREED_LIB_DIR has no libqaabireed.a in it: {given}");
        return;
    };
    let archive = folder.join("libqaabireed.a");
    println!("cargo::rerun-if-changed={}", archive.display());
    println!("cargo::rustc-link-search=native={}", folder.display());
    println!("cargo::rustc-link-lib=static=qaabireed");
    println!("cargo::rustc-cfg=qaabireed_library");
}

/// The folder as a full path, if it has the archive.
fn with_archive(folder: &Path) -> Option<PathBuf> {
    let folder = folder.canonicalize().ok()?;
    folder.join("libqaabireed.a").is_file().then_some(folder)
}
