//! Writes to standard output what document 01's program prints for the job in
//! the file named as argument.

use std::io::{stdout, Write};
use std::{env, fs};

use korrigwen_harness::printed::printed;

fn main() {
    let paths: Vec<String> = env::args().skip(1).collect();
    assert!(paths.len() == 1, "one argument: the job file");
    let file = fs::read(&paths[0]).expect("read the job file");
    stdout()
        .write_all(&printed(&file))
        .expect("write the output");
}
