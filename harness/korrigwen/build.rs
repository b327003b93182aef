//! Finds the archive `libkorrigwen_c.a`: in the folder that KORRIGWEN_ARCHIVE_DIR names, or else
//! where `tools/build.sh korrigwen_c` writes it. Where there is one the crate is compiled with the
//! cfg `linked`, and the crates over it are told its folder.

use std::path::{Path, PathBuf};
use std::{env, process};

fn main() {
    println!("cargo::rerun-if-env-changed=KORRIGWEN_ARCHIVE_DIR");
    println!("cargo::rustc-check-cfg=cfg(linked)");
    let Some(folder) = folder() else {
        return;
    };
    let archive = folder.join("libkorrigwen_c.a");
    println!("cargo::rerun-if-changed={}", archive.display());
    if !archive.is_file() {
        eprintln!(
            "{} is missing: `tools/build.sh korrigwen_c` writes one for x86-64, `harness/archive.sh aarch64` one for aarch64",
            archive.display()
        );
        process::exit(1);
    }
    println!("cargo::rustc-cfg=linked");
    println!("cargo::rustc-link-search=native={}", folder.display());
    println!("cargo::rustc-link-lib=static=korrigwen_c");
    println!("cargo::metadata=FOLDER={}", folder.display());
}

/// The folder of the archive. The kit runs on x86-64 alone, so elsewhere there is none unless it is
/// named.
fn folder() -> Option<PathBuf> {
    let manifest = env::var_os("CARGO_MANIFEST_DIR").expect("cargo names the folder");
    // A relative name counts from the folder above, `harness`, where cargo is called.
    let above = Path::new(&manifest).join("..");
    match env::var_os("KORRIGWEN_ARCHIVE_DIR") {
        Some(named) => Some(above.join(named)),
        None if env::var("CARGO_CFG_TARGET_ARCH").as_deref() == Ok("x86_64") => {
            Some(above.join("../target/staticlib"))
        }
        None => None,
    }
}
