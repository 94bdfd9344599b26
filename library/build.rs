//! Links the proved core: `libsigxume.a`, which `make library` writes to target/library at the top
//! of the repository, or to be found in the folder that the variable SIGXUME_LIBRARY names by its
//! whole path.

use std::env;
use std::path::PathBuf;

fn main() {
    println!("cargo::rerun-if-env-changed=SIGXUME_LIBRARY");
    let target = ["CARGO_CFG_TARGET_ARCH", "CARGO_CFG_TARGET_OS"].map(env::var);
    if target != [Ok("x86_64".into()), Ok("linux".into())] {
        println!("cargo::error=the core is built for Linux on x86-64 alone");
        return;
    }
    let package = env::var_os("CARGO_MANIFEST_DIR").expect("cargo names the package's folder");
    let (folder, remedy) = match env::var_os("SIGXUME_LIBRARY") {
        Some(folder) => (
            PathBuf::from(folder),
            "SIGXUME_LIBRARY must name its folder, by its whole path",
        ),
        None => (
            PathBuf::from(package).join("../target/library"),
            "run `make library` at the top of the repository first",
        ),
    };
    let archive = folder.join("libsigxume.a");
    println!("cargo::rerun-if-changed={}", archive.display());
    if !folder.is_absolute() || !archive.exists() {
        println!("cargo::error={} is missing: {remedy}", archive.display());
        return;
    }
    println!("cargo::rustc-link-search=native={}", folder.display());
    println!("cargo::rustc-link-lib=static=sigxume");
}
