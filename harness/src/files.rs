//! The two files of a case program: the frames that it reads and the lines that it must write.

use std::path::Path;
use std::{env, fs};

/// The paths given on the command line: the file of frames and the file of lines.
pub fn two_paths() -> [String; 2] {
    let paths: Vec<String> = env::args().skip(1).collect();
    paths
        .try_into()
        .expect("two arguments: the input file and the output file")
}

/// Writes both files, and their folders where they are missing.
pub fn write_both(paths: &[String; 2], input: &[u8], output: &[u8]) {
    for (path, bytes) in paths.iter().zip([input, output]) {
        if let Some(folder) = Path::new(path).parent() {
            fs::create_dir_all(folder).expect("make the folder");
        }
        fs::write(path, bytes).expect("write the cases");
    }
}
