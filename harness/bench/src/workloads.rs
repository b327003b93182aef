//! The jobs that are measured. Each is made of fixed rules and a fixed seed, so
//! every run of this program measures the same files.

use korrigwen_harness::build::{job, Table};
use korrigwen_harness::dice::Dice;

use crate::job::columns;

/// The rules below in words, for the table's reader.
pub const RULES: &str = "\
- **Example 1.1** is paper 001's: R(i, x), S(x, y, j), T(y, k), U(y, l) with N rows each, plan R S T U. No record.
- **Diamond** is the acyclic query of document 002, section 5.1: X(a, b), Y(b, c), Z(c, d) with N + 1, 2N − 4 and
  N + 1 rows in the order in which the document lists them, plan X Y Z. One record.
- **Chain, star, snowflake** have 8 tables and are made of N classes: all rows of a class agree with each other and
  with no row of another class. A shared column numbers the classes by a random permutation of its own, another
  column holds the class. In a class that dangles, the rows of the plan's last table have a key that occurs nowhere
  else, so that no row of the class is in a record, and this shows only at the last position. As many classes dangle
  as come nearest to the stated share. Each table's rows are shuffled. The tables, in plan order:
  - Chain: table i has the columns i and i + 1 and 1 row per class. Keys twice: 2 rows per class, so 256 records.
  - Star: a root of 7 keys with 4 rows per class, and for each key a table of it and a value with 1 row per class.
  - Snowflake, by their columns: (0, 1, 2) with 4 rows per class; (0, 3), (3, 6), (1, 4), (4, 7), (2, 5), (5, 8),
    (8, 9) with 1 row per class.
- **Distinct keys**: two tables of N rows that share one column, each key once in each table, shuffled. **Three key
  columns**: the same with three shared columns, the digits of a number below N to base 13.
- **Equal key**: tables of N rows that share one column, which is 7 everywhere, and have one of their own.

Random numbers are those of `harness/src/dice.rs` with a fixed seed. The largest N of a series, and the only N elsewhere
but with equal keys, is the largest that fits a job file.
";

const MOST_FILE: usize = 65_535;

/// Workloads that differ only in N form a series.
#[derive(Clone, Copy, Debug, PartialEq, Eq)]
pub enum Series {
    Example,
    Diamond,
}

impl Series {
    pub const ALL: [Series; 2] = [Series::Example, Series::Diamond];

    pub fn name(self) -> &'static str {
        match self {
            Series::Example => "Example 1.1",
            Series::Diamond => "Diamond",
        }
    }
}

pub struct Workload {
    pub name: String,
    pub series: Option<Series>,
    pub n: usize,
    pub file: Vec<u8>,
}

impl Workload {
    fn new(name: String, n: usize, tables: &[Table]) -> Workload {
        let plan: Vec<u8> = (0..tables.len() as u8).collect();
        Workload {
            name,
            series: None,
            n,
            file: job(&plan, tables),
        }
    }

    fn of_series(series: Series, n: usize, tables: &[Table]) -> Workload {
        let name = series.name().to_owned();
        Workload {
            series: Some(series),
            ..Workload::new(name, n, tables)
        }
    }
}

/// All workloads. A quick run has smaller ones.
pub fn all(quick: bool) -> Vec<Workload> {
    let share = if quick { 4 } else { 1 };
    let mut list = Vec::new();
    list.extend(halvings(largest(4, 9) / share).map(example));
    list.extend(halvings(largest_diamond() / share).map(diamond));
    for (name, shapes) in [
        ("Chain", chain(1)),
        ("Chain, keys twice", chain(2)),
        ("Star", star()),
        ("Snowflake", snowflake()),
    ] {
        let values = |(mask, rows): &Shape| mask.count_ones() as usize * rows;
        let n = largest(shapes.len(), shapes.iter().map(values).sum()) / share;
        list.extend([0, 50, 99].map(|dangling| of_classes(name, &shapes, n, dangling)));
    }
    list.push(distinct_keys(largest(2, 4) / share));
    list.push(three_key_columns(largest(2, 8) / share));
    list.push(equal_key(2, 1_000 / share));
    list.push(equal_key(3, 100 / share));
    list
}

/// The largest N with which so many tables fit a file, when they have
/// `values` × N values.
fn largest(tables: usize, values: usize) -> usize {
    (MOST_FILE - 12 - 16 * tables) / (4 * values)
}

/// The same for the diamond query, whose tables have 8 × N − 4 values.
fn largest_diamond() -> usize {
    (MOST_FILE - 12 - 16 * 3 + 4 * 4) / (4 * 8)
}

/// N halved several times, ascending.
fn halvings(largest: usize) -> impl Iterator<Item = usize> {
    (0..6).rev().map(move |times| largest >> times)
}

fn example(n: usize) -> Workload {
    let each = |row: fn(i32) -> Vec<i32>| (1..=n as i32).map(row).collect();
    let table = |mask, row| Table {
        mask,
        rows: each(row),
    };
    let tables = [
        table(0b00_0011, |i| vec![i, 1]),
        table(0b00_1110, |j| vec![1, 1, j]),
        table(0b01_0100, |k| vec![1, k]),
        table(0b10_0100, |l| vec![0, l]),
    ];
    Workload::of_series(Series::Example, n, &tables)
}

fn diamond(n: usize) -> Workload {
    let n_value = n as i32;
    let start = || vec![vec![1, 1]];
    let mut x = start();
    x.extend((1..=n_value).map(|a| vec![a, 2]));
    let mut y = start();
    y.extend((4..=n_value).map(|c| vec![2, c]));
    y.extend((3..=n_value).map(|b| vec![b, 3]));
    let mut z = start();
    z.extend((1..=n_value).map(|d| vec![3, d]));
    let tables = [(0b0011, x), (0b0110, y), (0b1100, z)].map(|(mask, rows)| Table { mask, rows });
    Workload::of_series(Series::Diamond, n, &tables)
}

/// A table made of classes: its column mask, and its rows per class.
type Shape = (u32, usize);

fn chain(rows: usize) -> Vec<Shape> {
    (0..8).map(|table| (0b11 << table, rows)).collect()
}

fn star() -> Vec<Shape> {
    let root = (0b111_1111, 4);
    let around = (0..7).map(|table| (0b1000_0001 << table, 1));
    [root].into_iter().chain(around).collect()
}

fn snowflake() -> Vec<Shape> {
    let pair = |a: u32, b: u32| (1 << a | 1 << b, 1);
    vec![
        (0b111, 4),
        pair(0, 3),
        pair(3, 6),
        pair(1, 4),
        pair(4, 7),
        pair(2, 5),
        pair(5, 8),
        pair(8, 9),
    ]
}

fn of_classes(name: &str, shapes: &[Shape], classes: usize, dangling: usize) -> Workload {
    let mut dice = Dice::seeded(0x4b6f_7272);
    let good = classes - (classes * dangling + 50) / 100;
    let shared = shared_columns(shapes);
    let numbers = class_numbers(&mut dice, shared, classes);
    let value = |last: bool, column: u32, class: usize| match shared >> column & 1 == 1 {
        true if last && class >= good => -1 - class as i32,
        _ => numbers[column as usize][class],
    };
    let table = |(at, &(mask, rows)): (usize, &Shape)| {
        let last = at + 1 == shapes.len();
        let row = |class| columns(mask).map(|c| value(last, c, class)).collect();
        let mut rows: Vec<Vec<i32>> = (0..rows * classes).map(|r| row(r % classes)).collect();
        shuffle(&mut dice, &mut rows);
        Table { mask, rows }
    };
    let tables: Vec<Table> = shapes.iter().enumerate().map(table).collect();
    Workload::new(format!("{name}, {dangling} % dangling"), classes, &tables)
}

/// The columns that more than one table has.
fn shared_columns(shapes: &[Shape]) -> u32 {
    let (_, shared) = shapes.iter().fold((0, 0), |(seen, shared), (mask, _)| {
        (seen | mask, shared | (seen & mask))
    });
    shared
}

/// For each column its value in each class.
fn class_numbers(dice: &mut Dice, shared: u32, classes: usize) -> Vec<Vec<i32>> {
    let numbers = |column: u32| {
        let mut numbers: Vec<i32> = (0..classes as i32).collect();
        if shared >> column & 1 == 1 {
            shuffle(dice, &mut numbers);
        }
        numbers
    };
    (0..u32::BITS).map(numbers).collect()
}

fn shuffle<T>(dice: &mut Dice, items: &mut [T]) {
    for last in (1..items.len()).rev() {
        items.swap(last, dice.below(last + 1));
    }
}

fn distinct_keys(n: usize) -> Workload {
    let mut dice = Dice::seeded(2);
    let tables = [0b011, 0b101].map(|mask| {
        let mut rows: Vec<Vec<i32>> = (0..n as i32).map(|v| vec![v, v]).collect();
        shuffle(&mut dice, &mut rows);
        Table { mask, rows }
    });
    Workload::new("Distinct keys".to_owned(), n, &tables)
}

fn three_key_columns(n: usize) -> Workload {
    let mut dice = Dice::seeded(3);
    let tables = [0b0_1111, 0b1_0111].map(|mask| {
        let row = |v: i32| vec![v % 13, v / 13 % 13, v / 169, v];
        let mut rows: Vec<Vec<i32>> = (0..n as i32).map(row).collect();
        shuffle(&mut dice, &mut rows);
        Table { mask, rows }
    });
    Workload::new("Three key columns".to_owned(), n, &tables)
}

fn equal_key(tables: usize, n: usize) -> Workload {
    let name = format!("Equal key, {tables} tables");
    let rows: Vec<Vec<i32>> = (0..n as i32).map(|v| vec![7, v]).collect();
    let table = |at| Table {
        mask: 1 | 0b10_u32 << at,
        rows: rows.clone(),
    };
    let tables: Vec<Table> = (0..tables).map(table).collect();
    Workload::new(name, n, &tables)
}

#[cfg(test)]
mod tests {
    use super::*;
    use crate::job;
    use crate::peers::Input;

    /// Each workload is accepted; the records are those that its rule says.
    #[test]
    fn records_of_the_workloads() {
        for workload in all(true) {
            let input = Input::new(workload.file);
            let n = workload.n;
            let good = |dangling: usize| n - (n * dangling + 50) / 100;
            let share = |name: &str| match name.split(", ").last() {
                Some("0 % dangling") => n,
                Some("50 % dangling") => good(50),
                _ => good(99),
            };
            let expected = match workload.name.as_str() {
                "Example 1.1" => 0,
                "Diamond" => 1,
                "Distinct keys" | "Three key columns" => n,
                "Equal key, 2 tables" => n * n,
                "Equal key, 3 tables" => n * n * n,
                name if name.starts_with("Chain, keys twice") => 256 * share(name),
                name if name.starts_with("Chain") => share(name),
                name => 4 * share(name),
            };
            assert_eq!(input.expected_records, expected, "{}", workload.name);
        }
    }

    #[test]
    fn largest_sizes_fill_the_file() {
        for (name, n) in [("Example 1.1", 1_818), ("Diamond", 2_046)] {
            let mut workloads = all(false).into_iter().filter(|w| w.name == name);
            let largest = workloads.next_back().expect("there are some");
            assert_eq!(largest.n, n);
            assert!(job::read(&largest.file).is_ok());
        }
        assert!(example(1_819).file.len() > MOST_FILE);
        assert!(diamond(2_047).file.len() > MOST_FILE);
        for workload in all(false) {
            assert!(job::read(&workload.file).is_ok(), "{}", workload.name);
        }
    }
}
