//! The archive: which one is linked for a target, and what works where there is none.

use std::io;
use std::path::Path;
use std::process::{Command, Output};

#[path = "../build.rs"]
#[allow(dead_code)]
mod build;

#[test]
fn each_target_has_its_archive() {
    let folder = |target, is_aligned| build::built(target, is_aligned).0;
    let imac = "riscv64imac-unknown-none-elf";
    let gc = "riscv64gc-unknown-none-elf";
    assert_eq!(folder(imac, false), "target/riscv64");
    assert_eq!(folder(imac, true), "target/riscv64/aligned");
    assert_eq!(folder(gc, false), "target/riscv64/lp64d");
    assert_eq!(folder(gc, true), "target/riscv64/aligned/lp64d");
    for host in ["x86_64-unknown-linux-gnu", "aarch64-unknown-linux-gnu"] {
        assert_eq!(
            [folder(host, false), folder(host, true)],
            ["target/staticlib"; 2]
        );
    }
}

/// Runs cargo on this package, in a folder of its own, with no archive.
fn cargo(words: &[&str]) -> io::Result<Output> {
    let folder = Path::new(env!("CARGO_TARGET_TMPDIR"));
    Command::new(env!("CARGO"))
        .args(words)
        .args(["--offline", "--locked", "--manifest-path"])
        .arg(concat!(env!("CARGO_MANIFEST_DIR"), "/Cargo.toml"))
        .arg("--target-dir")
        .arg(folder.join("without_archive"))
        .env("VHART_LIB_DIR", folder.join("no_archive"))
        .output()
}

#[test]
fn what_does_not_link_needs_no_archive() -> io::Result<()> {
    const WARNINGS: [&str; 2] = [
        "libvhart.a, so this can be checked, but not linked",
        "build it with `make lib` in the repository, or set VHART_LIB_DIR",
    ];
    for words in [
        &["check"][..],
        &["check", "--features", "aligned"],
        &["doc", "--no-deps"],
    ] {
        let output = cargo(words)?;
        let said = String::from_utf8_lossy(&output.stderr);
        assert!(output.status.success(), "cargo {words:?}: {said}");
        assert!(
            WARNINGS.iter().all(|warning| said.contains(warning)),
            "{said}"
        );
    }
    let output = cargo(&["build"])?;
    let said = String::from_utf8_lossy(&output.stderr);
    assert!(!output.status.success(), "a build found an archive: {said}");
    assert!(
        said.contains("could not find native static library `vhart`"),
        "{said}"
    );
    assert!(
        WARNINGS.iter().all(|warning| said.contains(warning)),
        "{said}"
    );
    Ok(())
}
