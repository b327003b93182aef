//! Links SQLite, and notes for the table of the machine the compiler's version and how the library
//! was built.

use std::path::Path;
use std::process::{self, Command};
use std::{env, fs};

fn main() {
    println!("cargo:rerun-if-changed=build.rs");
    println!("cargo:rustc-link-lib=dylib=sqlite3");
    println!("cargo:rustc-env=BENCH_RUSTC={}", compiler());
    println!("cargo:rustc-env=BENCH_LIBRARY={}", library());
}

fn compiler() -> String {
    let said = Command::new(env::var_os("RUSTC").expect("cargo sets RUSTC"))
        .arg("--version")
        .output()
        .expect("the compiler runs");
    String::from_utf8_lossy(&said.stdout).trim().to_owned()
}

/// What harness/archive.sh says beside its archive; `rt lib` says nothing beside its own.
fn library() -> String {
    let Some(folder) = env::var_os("DEP_KORRIGWEN_C_FOLDER") else {
        eprintln!("there is no archive to link: harness/archive.sh writes one, and KORRIGWEN_ARCHIVE_DIR names its folder");
        process::exit(1);
    };
    let about = Path::new(&folder).join("about.txt");
    println!("cargo:rerun-if-changed={}", about.display());
    match fs::read_to_string(about) {
        Ok(text) => text.trim().to_owned(),
        Err(_) if env::var_os("KORRIGWEN_ARCHIVE_DIR").is_some() => "not said how built".to_owned(),
        Err(_) => "the archive that `rt lib` writes".to_owned(),
    }
}
