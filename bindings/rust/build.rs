//! Finds the proved archive libqaabireed.a, or has the toolchain build it.

use std::path::{Path, PathBuf};
use std::process::{Command, Stdio};

/// The archive's file name.
const ARCHIVE: &str = "libqaabireed.a";

/// The repository's root, from this folder; a relative folder is taken from there.
const ROOT: &str = "../..";

/// The exit status of a script that does not find a command.
const NO_COMMAND: i32 = 127;

/// Links the archive, or fails with one readable line.
fn main() {
    println!("cargo::rerun-if-changed=build.rs");
    println!("cargo::rerun-if-env-changed=QAABIREED_LIB_DIR");
    match archive_folder() {
        Err(line) => println!("cargo::error={line}"),
        Ok(folder) => {
            let archive = folder.join(ARCHIVE);
            println!("cargo::rerun-if-changed={}", archive.display());
            println!("cargo::rustc-link-search=native={}", folder.display());
            println!("cargo::rustc-link-lib=static=qaabireed");
        }
    }
}

/// The folder of the archive: the given one, else the repository's, where it is built if absent.
fn archive_folder() -> Result<PathBuf, String> {
    let given = std::env::var_os("QAABIREED_LIB_DIR");
    if let Some(given) = given.filter(|given| !given.is_empty()) {
        let shown = given.display();
        return with_archive(Path::new(ROOT).join(&given))
            .ok_or(format!("QAABIREED_LIB_DIR has no {ARCHIVE} in it: {shown}"));
    }
    let built = Path::new(ROOT).join("target/staticlib");
    if let Some(folder) = with_archive(built.clone()) {
        return Ok(folder);
    }
    build_archive()?;
    with_archive(built).ok_or(format!("`tools/archive` wrote no {ARCHIVE}"))
}

/// The folder as a full path, if it has the archive.
fn with_archive(folder: PathBuf) -> Option<PathBuf> {
    let folder = folder.canonicalize().ok()?;
    folder.join(ARCHIVE).is_file().then_some(folder)
}

/// Runs `tools/archive` of the repository.
fn build_archive() -> Result<(), String> {
    let run = Command::new(Path::new(ROOT).join("tools/archive"))
        .stdin(Stdio::null())
        .output();
    match run {
        Ok(output) if output.status.success() => Ok(()),
        Ok(output) if output.status.code() == Some(NO_COMMAND) => Err(format!(
            "{ARCHIVE} is absent and so is Rattle's command `rt`, which builds it: install the toolchain, or set QAABIREED_LIB_DIR to a folder that has {ARCHIVE}"
        )),
        Ok(output) => Err(format!(
            "`tools/archive` ended with {}: {}",
            output.status,
            last_line(&output.stdout, &output.stderr)
        )),
        Err(error) => Err(format!("`tools/archive` did not start: {error}")),
    }
}

/// The last line that a command wrote, its errors first.
fn last_line(output: &[u8], errors: &[u8]) -> String {
    let lines = [errors, output].map(|bytes| String::from_utf8_lossy(bytes).into_owned());
    let mut written = lines.iter().flat_map(|text| text.lines().last());
    written.next().unwrap_or("no output").to_string()
}
