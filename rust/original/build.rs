//! Lays out the original's source tree: its files byte for byte, and beside them those of
//! `missing`, which stand for files that weren't supplied. MIRALIS_SRC names the folder of the
//! originals, the one with src/.
use std::path::{Path, PathBuf};
use std::process::exit;
use std::{env, fs, io};

const SUPPLIED: [&str; 15] = [
    "arch/mod.rs",
    "arch/pmp.rs",
    "decoder.rs",
    "device/clint.rs",
    "device/mod.rs",
    "driver/clint.rs",
    "host.rs",
    "logger.rs",
    "modules.rs",
    "platform/mod.rs",
    "utils.rs",
    "virt/csr.rs",
    "virt/emulator.rs",
    "virt/memory.rs",
    "virt/mod.rs",
];

const MISSING: [&str; 12] = [
    "arch/metal.rs",
    "arch/registers.rs",
    "arch/trap.rs",
    "device/plic.rs",
    "device/tester.rs",
    "driver/mod.rs",
    "platform/miralis.rs",
    "platform/premierp550.rs",
    "platform/virt.rs",
    "platform/visionfive2.rs",
    "root.rs",
    "virt/world_switch.rs",
];

/// The two are private to virt::emulator. These lines stand behind its text, which stays as it is.
const EMULATOR: &str = "virt/emulator.rs";
const ACCESS: &str = "
impl VirtContext {
    pub fn pending(&mut self) -> Option<usize> { self.has_pending_interrupt() }
    pub fn inject(&mut self, number: usize) { self.inject_interrupt(number) }
}
";

fn main() {
    println!("cargo:rerun-if-env-changed=MIRALIS_SRC");
    let originals =
        env::var_os("MIRALIS_SRC").map_or("../../../shared/docs/src".into(), PathBuf::from);
    let tree = PathBuf::from(env::var_os("OUT_DIR").expect("cargo sets it")).join("tree");
    for (folder, files) in [
        (&originals.join("src"), &SUPPLIED[..]),
        (&"missing".into(), &MISSING),
    ] {
        for file in files {
            if let Err(why) = lay_out(folder, file, &tree) {
                eprintln!("error: {}: {why}", folder.join(file).display());
                eprintln!("  MIRALIS_SRC must name the folder of the original's sources, the one with src/");
                exit(1);
            }
        }
    }
}

fn lay_out(folder: &Path, file: &str, tree: &Path) -> io::Result<()> {
    let (from, to) = (folder.join(file), tree.join(file));
    println!("cargo:rerun-if-changed={}", from.display());
    let mut text = fs::read(from)?;
    if file == EMULATOR {
        text.extend_from_slice(ACCESS.as_bytes());
    }
    fs::create_dir_all(to.parent().expect("it stands in the tree"))?;
    fs::write(to, text)
}
