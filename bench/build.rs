//! Hands the compiler's version to the report.

use std::process::Command;

/// Asks the compiler that builds this crate.
fn main() {
    println!("cargo::rerun-if-changed=build.rs");
    let compiler = std::env::var("RUSTC").unwrap_or("rustc".to_string());
    let output = Command::new(compiler).arg("--version").output();
    let version = output.map_or(String::new(), |output| {
        String::from_utf8_lossy(&output.stdout).trim().to_string()
    });
    println!("cargo::rustc-env=COMPILER={version}");
}
