//! Links libvhart.a: from the folder that `VHART_LIB_DIR` names, or from where the repository
//! builds it for the target. Where it isn't there yet, this only warns: what doesn't link doesn't
//! need it.

use std::env;
use std::path::{absolute, Path, PathBuf};

fn main() {
    println!("cargo:rerun-if-env-changed=VHART_LIB_DIR");
    let target = env::var("TARGET").unwrap_or_default();
    let (folder, command) = built(&target, env::var_os("CARGO_FEATURE_ALIGNED").is_some());
    let dir = match env::var_os("VHART_LIB_DIR") {
        Some(dir) => PathBuf::from(dir),
        None => Path::new(env!("CARGO_MANIFEST_DIR"))
            .join("../..")
            .join(folder),
    };
    // An absolute path, since cargo runs this script and the linker in different folders.
    let dir = dir
        .canonicalize()
        .or_else(|_| absolute(&dir))
        .unwrap_or(dir);
    let archive = dir.join("libvhart.a");
    println!("cargo:rerun-if-changed={}", archive.display());
    println!("cargo:rustc-link-search=native={}", dir.display());
    println!("cargo:rustc-link-lib=static=vhart");
    if !archive.is_file() {
        println!(
            "cargo:warning=no {}, so this can be checked, but not linked",
            archive.display()
        );
        println!("cargo:warning=build it with `{command}` in the repository, or set VHART_LIB_DIR to the folder that has it");
    }
}

// The folder of the repository that has the archive for the target, and the command that builds it.
pub(crate) fn built(target: &str, is_aligned: bool) -> (&'static str, &'static str) {
    match (target.split('-').next(), is_aligned) {
        (Some("riscv64imac"), false) => ("target/riscv64", "make riscv64"),
        (Some("riscv64imac"), true) => ("target/riscv64/aligned", "make riscv64"),
        (Some("riscv64gc"), false) => ("target/riscv64/lp64d", "make riscv64"),
        (Some("riscv64gc"), true) => ("target/riscv64/aligned/lp64d", "make riscv64"),
        _ => ("target/staticlib", "make lib"),
    }
}
