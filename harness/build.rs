//! Compiles the harness with the cfg `linked` where the crate `korrigwen` has an archive to link.

use std::env;

fn main() {
    println!("cargo::rerun-if-changed=build.rs");
    println!("cargo::rustc-check-cfg=cfg(linked)");
    // The crate's build script says the archive's folder.
    if env::var_os("DEP_KORRIGWEN_C_FOLDER").is_some() {
        println!("cargo::rustc-cfg=linked");
    }
}
