//! The options of the command line.

use std::path::PathBuf;

use crate::peers::Kind;

pub const USAGE: &str = "\
usage: korrigwen-bench [--quick] [--table PATH] [--plot PATH] [--peers NAME,NAME] [--only TEXT]
  --quick   small workloads and few repeats
  --table   where the Markdown goes (default ../docs/BENCHMARKS.md)
  --plot    where the SVG goes (default ../docs/benchmarks.svg)
  --peers   only these beside Korrigwen: scan, treetracker, binary, yannakakis, sqlite
  --only    only workloads whose name has this text; nothing is written then";

pub struct Options {
    pub quick: bool,
    pub table: PathBuf,
    pub plot: PathBuf,
    pub kinds: Vec<Kind>,
    pub only: Option<String>,
}

impl Options {
    pub fn parse(mut arguments: impl Iterator<Item = String>) -> Result<Options, String> {
        let mut options = Options {
            quick: false,
            table: "../docs/BENCHMARKS.md".into(),
            plot: "../docs/benchmarks.svg".into(),
            kinds: Kind::ALL.to_vec(),
            only: None,
        };
        while let Some(argument) = arguments.next() {
            let mut value = || arguments.next().ok_or(format!("{argument} needs a value"));
            match argument.as_str() {
                "--quick" => options.quick = true,
                "--table" => options.table = value()?.into(),
                "--plot" => options.plot = value()?.into(),
                "--peers" => options.kinds = kinds(&value()?)?,
                "--only" => options.only = Some(value()?),
                _ => return Err(format!("no such option: {argument}")),
            }
        }
        Ok(options)
    }
}

/// Korrigwen, and the peers named.
fn kinds(names: &str) -> Result<Vec<Kind>, String> {
    let mut kinds = vec![Kind::Korrigwen];
    for name in names.split(',') {
        kinds.push(match name {
            "scan" => Kind::Scan,
            "treetracker" => Kind::TreeTracker,
            "binary" => Kind::Binary,
            "yannakakis" => Kind::Yannakakis,
            "sqlite" => Kind::Sqlite,
            _ => return Err(format!("no such peer: {name}")),
        });
    }
    Ok(kinds)
}
