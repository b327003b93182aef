//! Korrigwen beside other ways to compute the same joins, on the same jobs in
//! one process. It passes no judgement by time; it stops if any peer's records
//! differ from Korrigwen's, or the counts of the peers that have document 01's
//! steps and lookups.

mod job;
mod machine;
mod measure;
mod options;
mod peers;
mod plot;
mod readings;
mod summary;
mod table;
mod tables;
mod workloads;

use std::path::Path;
use std::{env, fs, process};

use measure::{Effort, Measured};
use options::Options;

fn main() {
    let arguments: Vec<String> = env::args().skip(1).collect();
    let options = Options::parse(arguments.iter().cloned()).unwrap_or_else(|fault| {
        eprintln!("{fault}\n{}", options::USAGE);
        process::exit(2);
    });
    let effort = Effort::new(options.quick);
    let measured = measure_all(&options, &effort);
    if options.only.is_some() {
        return;
    }
    let report = table::Report {
        kinds: &options.kinds,
        measured: &measured,
        readings: &readings::measure(options.quick),
        effort: &effort,
        options: written_options(&arguments),
        plot: options.plot.file_name().unwrap_or_default(),
    };
    put(&options.table, &table::write(&report));
    put(&options.plot, &plot::write(&options.kinds, &measured));
}

/// The options as the command line had them.
fn written_options(arguments: &[String]) -> String {
    match arguments {
        [] => String::new(),
        _ => format!(" -- {}", arguments.join(" ")),
    }
}

/// Measures all workloads and says each one's times as soon as they are there.
fn measure_all(options: &Options, effort: &Effort) -> Vec<Measured> {
    let mut done: Vec<Measured> = Vec::new();
    for workload in workloads::all(options.quick) {
        let wanted = options.only.as_ref();
        if wanted.is_some_and(|text| !workload.name.contains(text.as_str())) {
            continue;
        }
        let measured = measure::workload(workload, &options.kinds, &done, effort);
        println!("{}", table::line(&measured));
        done.push(measured);
    }
    done
}

fn put(path: &Path, text: &str) {
    if let Some(folder) = path.parent() {
        fs::create_dir_all(folder).expect("the folder can be made");
    }
    fs::write(path, text).expect("the file can be written");
    println!("written: {}", path.display());
}
