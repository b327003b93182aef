//! Writes the cases for reading: the input frames to the file named first, the
//! expected output lines to the file named second.
//!
//! A frame is a label and a file (`frames`). Each frame has one line of output
//! (`lines`).
//!
//! Most cases state their answer here by hand; the reader must agree. Every
//! case is also held against `standing`, a list of all faults found in a file
//! without stopping at the first.

use std::collections::BTreeSet;

use korrigwen_harness::build::{
    entry_at, job, job_v, job_w, set_u32, tables_v, tables_w, Table, FIELDS, MASK, OFFSET, ROWS,
};
use korrigwen_harness::faults::standing;
use korrigwen_harness::files::{two_paths, write_both};
use korrigwen_harness::frames::put_read_frame;
use korrigwen_harness::lines::{parents_spoken, read_line};
use korrigwen_harness::reader::{read, Job, Refusal};

const MOST: u32 = u32::MAX;

fn main() {
    let paths = two_paths();

    let mut cases = Cases::default();
    lengths(&mut cases);
    table_numbers(&mut cases);
    exact_lengths(&mut cases);
    plans(&mut cases);
    masks(&mut cases);
    field_counts(&mut cases);
    row_counts(&mut cases);
    offsets(&mut cases);
    products(&mut cases);
    bodies(&mut cases);
    empty_tables(&mut cases);
    ears(&mut cases);
    pairs(&mut cases);
    cases.check_pairs();

    assert!(
        cases.input.len() < 2_000_000,
        "the input is kept below 2 MB"
    );
    write_both(&paths, &cases.input, &cases.output);
    println!(
        "{} cases, input {} bytes, output {} bytes",
        cases.labels.len(),
        cases.input.len(),
        cases.output.len()
    );
}

// ---- collecting -----------------------------------------------------------

#[derive(Default)]
struct Cases {
    labels: BTreeSet<String>,
    input: Vec<u8>,
    output: Vec<u8>,
    /// Pairs of different refusal numbers that stand in one file.
    together: BTreeSet<(u32, u32)>,
}

impl Cases {
    /// Adds a case whose answer is the reader's.
    fn told(&mut self, label: &str, file: &[u8]) -> Result<Job, Refusal> {
        assert!(
            self.labels.insert(label.to_string()),
            "label twice: {label}"
        );

        let answer = read(file);
        let faults = standing(file);
        let first = faults
            .first()
            .map(|&(number, place)| Refusal { number, place });
        assert_eq!(answer.as_ref().err(), first.as_ref(), "{label}");
        for &(a, _) in &faults {
            for &(b, _) in &faults {
                if a < b {
                    self.together.insert((a, b));
                }
            }
        }

        put_read_frame(label, file, &mut self.input);
        self.output.extend(read_line(label, &answer).as_bytes());
        answer
    }

    /// Adds a case that is refused with this number at this place.
    fn refused(&mut self, label: &str, file: &[u8], number: u32, place: usize) {
        let place = place as u32;
        let answer = self.told(label, file);
        assert_eq!(answer, Err(Refusal { number, place }), "{label}");
    }

    /// Adds a case that is accepted with these parents, e.g. "none 0 1".
    fn accepted(&mut self, label: &str, file: &[u8], parents: &str) {
        match self.told(label, file) {
            Ok(job) => assert_eq!(parents_spoken(&job), parents, "{label}"),
            Err(refusal) => panic!("{label}: {refusal:?}"),
        }
    }

    /// Adds a case in which both faults stand; the first is the answer.
    fn pair(&mut self, label: &str, file: &[u8], first: (u32, usize), second: (u32, usize)) {
        let faults = standing(file);
        assert!(faults.contains(&(second.0, second.1 as u32)), "{label}");
        self.refused(label, file, first.0, first.1);
    }

    /// Every pair that can stand in one file is there. Two cannot: a file too
    /// short for its contents, or for a body, has no bytes left over.
    fn check_pairs(&self) {
        for a in 1..=11 {
            for b in a + 1..=11 {
                let can = (a, b) != (3, 10) && (a, b) != (9, 10);
                assert_eq!(self.together.contains(&(a, b)), can, "pair {a} {b}");
            }
        }
    }
}

// ---- making files ---------------------------------------------------------

/// Tables with these masks, so many rows each.
fn tables(masks: &[u32], rows: usize) -> Vec<Table> {
    masks
        .iter()
        .map(|&mask| Table::filled(mask, rows))
        .collect()
}

/// The plan 0 1 2 and so on, for as many tables as the plan has room for.
fn in_order(k: usize) -> Vec<u8> {
    (0..k.min(8) as u8).collect()
}

fn straight(tables: &[Table]) -> Vec<u8> {
    job(&in_order(tables.len()), tables)
}

fn with_u32(mut file: Vec<u8>, at: usize, n: u32) -> Vec<u8> {
    set_u32(&mut file, at, n);
    file
}

/// The file with entry `e`'s number at `which` replaced.
fn with_entry(file: &[u8], e: usize, which: usize, n: u32) -> Vec<u8> {
    with_u32(file.to_vec(), entry_at(e) + which, n)
}

fn entry_number(file: &[u8], e: usize, which: usize) -> u32 {
    let at = entry_at(e) + which;
    u32::from_le_bytes(file[at..at + 4].try_into().unwrap())
}

/// The file with these plan bytes replaced, given as (position, byte).
fn with_plan(file: &[u8], bytes: &[(usize, u8)]) -> Vec<u8> {
    let mut file = file.to_vec();
    for &(position, byte) in bytes {
        file[4 + position] = byte;
    }
    file
}

/// The file cut or filled up with zeros to this length.
fn sized(mut file: Vec<u8>, length: usize) -> Vec<u8> {
    file.resize(length, 0);
    file
}

/// The tables and two more that share no column with those below column 16;
/// together they make a file of this length.
fn filled_up(mut tables: Vec<Table>, length: usize) -> Vec<Table> {
    let bodies: usize = tables.iter().map(Table::body_len).sum();
    let values = (length - entry_at(tables.len() + 2) - bodies) / 4;
    let last = (values - 1) % 8 + 1;
    tables.push(Table::filled(0x00ff_0000, (values - last) / 8));
    tables.push(Table::filled(0xff00_0000 << (8 - last), 1));
    assert_eq!(straight(&tables).len(), length);
    tables
}

/// Eight tables in a chain: table i has columns i and i + 1.
fn chain() -> Vec<Table> {
    tables(&[0, 1, 2, 3, 4, 5, 6, 7].map(|i| 3 << i), 1)
}

fn words(numbers: &[u8]) -> String {
    let words: Vec<String> = numbers.iter().map(u8::to_string).collect();
    words.join(" ")
}

/// All orders of the numbers below k.
fn orders(k: u8) -> Vec<Vec<u8>> {
    let mut all = vec![vec![]];
    for _ in 0..k {
        all = all
            .into_iter()
            .flat_map(|start: Vec<u8>| {
                (0..k)
                    .filter(|n| !start.contains(n))
                    .map(|n| [start.clone(), vec![n]].concat())
                    .collect::<Vec<_>>()
            })
            .collect();
    }
    all
}

// ---- the cases ------------------------------------------------------------

fn lengths(cases: &mut Cases) {
    for (length, number) in [
        (0, 1),
        (1, 1),
        (4, 1),
        (11, 1),
        (12, 2),
        (13, 2),
        (28, 2),
        (65_535, 2),
        (65_536, 1),
    ] {
        cases.refused(&format!("length {length}"), &vec![0; length], number, 0);
    }
    cases.refused("length 12 one table", &with_u32(vec![0; 12], 0, 1), 3, 0);

    let w = job_w();
    for length in 1..104 {
        let (number, place) = match length {
            1..=11 => (1, 0),
            12..=59 => (3, 0),
            60..=75 => (9, 0),
            76..=99 => (9, 1),
            _ => (9, 2),
        };
        cases.refused(&format!("W cut to {length}"), &w[..length], number, place);
    }

    // 28 + 2,047 × 8 × 4 and 76 + 16,364 × 4, both 65,532
    let wide = straight(&[Table::filled(0xff, 2_047)]);
    let mut long = tables(&[1, 2, 4], 4_096);
    long.push(Table::filled(8, 4_076));
    let long = straight(&long);
    assert_eq!((wide.len(), long.len()), (65_532, 65_532));
    cases.accepted("length 65532 one table", &wide, "none");
    cases.accepted("length 65532 most rows", &long, "none 0 0 0");
    cases.refused(
        "length 65535 good layout and 3 bytes",
        &sized(wide.clone(), 65_535),
        10,
        0,
    );
    cases.refused(
        "length 65536 good layout",
        &straight(&filled_up(vec![], 65_536)),
        1,
        0,
    );
}

fn table_numbers(cases: &mut Cases) {
    let w = job_w();
    let others = [
        0,
        9,
        10,
        255,
        256,
        259,
        65_536,
        65_539,
        16_777_219,
        268_435_456,
        268_435_459,
        2_147_483_648,
        2_147_483_651,
        MOST,
    ];
    for k in others {
        cases.refused(&format!("W with k {k}"), &with_u32(w.clone(), 0, k), 2, 0);
    }
    cases.refused("k 0 nothing else", &with_u32(vec![0; 12], 0, 0), 2, 0);
    cases.refused(
        "k 4294967295 nothing else",
        &with_u32(vec![0; 12], 0, MOST),
        2,
        0,
    );
    cases.refused("W with k 1", &with_u32(w.clone(), 0, 1), 4, 1);
    cases.refused("W with k 2", &with_u32(w.clone(), 0, 2), 4, 2);
    cases.refused("W with k 4", &with_u32(w.clone(), 0, 4), 4, 3);
    cases.refused("W with k 8", &with_u32(w.clone(), 0, 8), 3, 0);
    cases.accepted("k 1", &straight(&tables(&[1], 1)), "none");
    cases.accepted("k 2", &straight(&tables(&[1, 3], 1)), "none 0");
    cases.accepted("k 8", &straight(&chain()), "none 0 1 2 3 4 5 6");
    let nine: Vec<u32> = (0..9).map(|i| 3 << i).collect();
    cases.refused("k 9", &straight(&tables(&nine, 1)), 2, 0);
    cases.refused("k 9 empty tables", &straight(&tables(&nine, 0)), 2, 0);
}

fn exact_lengths(cases: &mut Cases) {
    for k in 1..=8 {
        let masks: Vec<u32> = (0..k).map(|i| 1 << i).collect();
        let file = straight(&tables(&masks, 0));
        let exact = 12 + 16 * k;
        assert_eq!(file.len(), exact);
        let last = k - 1;
        let all_zero = ["none", " 0 0 0 0 0 0 0"].concat()[..4 + 2 * last].to_string();

        cases.accepted(&format!("k {k} exact"), &file, &all_zero);
        cases.refused(&format!("k {k} one short"), &file[..exact - 1], 3, 0);
        cases.refused(
            &format!("k {k} one over"),
            &sized(file.clone(), exact + 1),
            10,
            0,
        );
        cases.refused(
            &format!("k {k} exact entries zero"),
            &sized(file[..12].to_vec(), exact),
            5,
            0,
        );
        cases.refused(
            &format!("k {k} exact last entry zero"),
            &sized(file[..exact - 16].to_vec(), exact),
            5,
            last,
        );
        if k > 1 {
            cases.refused(
                &format!("k {k} exact all else zero"),
                &sized(file[..4].to_vec(), exact),
                4,
                1,
            );
        }
        for (name, e) in [("first", 0), ("last", last)] {
            cases.refused(
                &format!("k {k} exact row in {name}"),
                &with_entry(&file, e, ROWS, 1),
                9,
                e,
            );
            cases.refused(
                &format!("k {k} exact fields of {name}"),
                &with_entry(&file, e, FIELDS, 2),
                6,
                e,
            );
            cases.refused(
                &format!("k {k} exact rows of {name}"),
                &with_entry(&file, e, ROWS, 4_097),
                7,
                e,
            );
            let after = exact as u32 + 1;
            cases.refused(
                &format!("k {k} exact offset of {name}"),
                &with_entry(&file, e, OFFSET, after),
                8,
                e,
            );
        }
    }
}

fn plans(cases: &mut Cases) {
    for (name, file, k) in [("k 3", job_w(), 3usize), ("k 8", straight(&chain()), 8)] {
        let last = k as u8 - 1;
        for p in 0..k {
            for byte in [k as u8, 255] {
                cases.refused(
                    &format!("{name} plan byte {p} is {byte}"),
                    &with_plan(&file, &[(p, byte)]),
                    4,
                    p,
                );
            }
            // Each byte repeats each other one: the later of the two is faulty.
            for q in (0..k).filter(|&q| q != p) {
                let repeated = with_plan(&file, &[(p, q as u8)]);
                cases.refused(
                    &format!("{name} plan byte {p} repeats byte {q}"),
                    &repeated,
                    4,
                    p.max(q),
                );
            }
        }
        for p in k..8 {
            for byte in [1, k as u8, 128, 255] {
                cases.refused(
                    &format!("{name} plan byte {p} is {byte}"),
                    &with_plan(&file, &[(p, byte)]),
                    4,
                    p,
                );
            }
        }
        let mut several = |label: &str, bytes: &[(usize, u8)], place: usize| {
            cases.refused(
                &format!("{name} plan {label}"),
                &with_plan(&file, bytes),
                4,
                place,
            );
        };
        several("all 255", &[0, 1, 2, 3, 4, 5, 6, 7].map(|p| (p, 255)), 0);
        several("all 0", &[0, 1, 2, 3, 4, 5, 6, 7].map(|p| (p, 0)), 1);
        several("all last", &[0, 1, 2, 3, 4, 5, 6, 7].map(|p| (p, last)), 1);
        several("high at 1 and 2", &[(1, 255), (2, 254)], 1);
        several("high at 0 repeated at 2", &[(0, k as u8), (2, 1)], 0);
        several("repeated at 1 high at 2", &[(1, 0), (2, 255)], 1);
        several("high at 1 repeated at 2", &[(1, 255), (2, 0)], 1);
        several("high twice", &[(1, 200), (2, 200)], 1);
        several("repeated at 2 wrong at 6", &[(2, 0), (6, 255)], 2);
        several("repeated at 1 and 2", &[(1, 0), (2, 0)], 1);
        several("last three 255", &[(5, 255), (6, 255), (7, 255)], 5);
    }
    let w = job_w();
    cases.refused(
        "k 3 plan counts on",
        &with_plan(&w, &[(3, 3), (4, 4), (5, 5), (6, 6), (7, 7)]),
        4,
        3,
    );
    cases.refused(
        "k 3 plan wrong at 4 and 7",
        &with_plan(&w, &[(4, 1), (7, 1)]),
        4,
        4,
    );
    cases.refused(
        "k 3 plan wrong at 7 and 3",
        &with_plan(&w, &[(3, 9), (7, 9)]),
        4,
        3,
    );
    cases.refused(
        "k 3 plan from 1",
        &with_plan(&w, &[(0, 1), (1, 2), (2, 3)]),
        4,
        2,
    );

    let one = straight(&tables(&[1], 1));
    for p in 0..8 {
        cases.refused(
            &format!("k 1 plan byte {p} is 1"),
            &with_plan(&one, &[(p, 1)]),
            4,
            p,
        );
    }
}

fn masks(cases: &mut Cases) {
    let w = job_w();
    for e in 0..3 {
        let zero = with_entry(&w, e, MASK, 0);
        cases.refused(&format!("mask 0 in entry {e}"), &zero, 5, e);
        let bare = with_entry(&with_entry(&zero, e, FIELDS, 0), e, ROWS, 0);
        cases.refused(
            &format!("mask 0 no fields no rows in entry {e}"),
            &bare,
            5,
            e,
        );
        cases.refused(
            &format!("mask all ones in entry {e}"),
            &with_entry(&w, e, MASK, MOST),
            5,
            e,
        );

        let replaced = |mask| {
            let mut tables = tables_w();
            tables[e] = Table::filled(mask, 2);
            straight(&tables)
        };
        cases.refused(
            &format!("17 columns in entry {e}"),
            &replaced(0xffff_8000),
            5,
            e,
        );
        cases.refused(&format!("32 columns in entry {e}"), &replaced(MOST), 5, e);
        let parents = ["none 0 1", "none 0 0", "none 0 0"][e];
        cases.accepted(
            &format!("16 columns in entry {e}"),
            &replaced(0xffff_0000),
            parents,
        );
    }

    for n in 1..=32u32 {
        let file = straight(&tables(&[MOST >> (32 - n)], 1));
        let label = format!("one table of {n} columns");
        if n <= 16 {
            cases.accepted(&label, &file, "none");
        } else {
            cases.refused(&label, &file, 5, 0);
        }
    }
    for c in 0..32 {
        cases.accepted(
            &format!("only column {c}"),
            &straight(&tables(&[1 << c], 1)),
            "none",
        );
    }
    for mask in [0x5555_5555, 0xaaaa_aaaa, 0xf0f0_f0f0, 0x8000_7fff] {
        cases.accepted(
            &format!("16 columns mask {mask}"),
            &straight(&tables(&[mask], 1)),
            "none",
        );
    }
    for mask in [0x5555_5557, 0xaaaa_aaab, 0xf0f0_f0f1, 0x8000_ffff] {
        cases.refused(
            &format!("17 columns mask {mask}"),
            &straight(&tables(&[mask], 1)),
            5,
            0,
        );
    }
}

fn field_counts(cases: &mut Cases) {
    let w = job_w();
    for e in 0..3 {
        let right = entry_number(&w, e, FIELDS);
        let wrong: BTreeSet<u32> = [
            right - 1,
            right + 1,
            0,
            3 - right,
            right + 256,
            right + 65_536,
            right + 16_777_216,
            right + 2_147_483_648,
            MOST,
        ]
        .into();
        for n in wrong {
            cases.refused(
                &format!("fields {n} in entry {e}"),
                &with_entry(&w, e, FIELDS, n),
                6,
                e,
            );
        }
        // Same number of ones, other columns: nothing is wrong with the entry.
        let other = with_entry(&w, e, MASK, entry_number(&w, e, MASK) << 10);
        cases.accepted(
            &format!("other columns in entry {e}"),
            &other,
            ["none 0 1", "none 0 0", "none 0 0"][e],
        );
    }
    // One more and one fewer, with the bodies that the field counts would need.
    let mut file = straight(&tables(&[3, 7], 1));
    set_u32(&mut file, entry_at(0) + FIELDS, 3);
    set_u32(&mut file, entry_at(1) + FIELDS, 2);
    set_u32(&mut file, entry_at(1) + OFFSET, 56);
    cases.refused("fields 3 and 2 with masks 3 and 7", &file, 6, 0);
}

fn row_counts(cases: &mut Cases) {
    let w = job_w();
    for e in 0..3 {
        let replaced = |rows| {
            let mut tables = tables(&[1, 2, 4], 1);
            tables[e] = Table::filled(1 << e, rows);
            straight(&tables)
        };
        cases.accepted(
            &format!("rows 4096 in entry {e}"),
            &replaced(4_096),
            "none 0 0",
        );
        cases.refused(&format!("rows 4097 in entry {e}"), &replaced(4_097), 7, e);

        cases.refused(
            &format!("rows 4096 without bodies in entry {e}"),
            &with_entry(&w, e, ROWS, 4_096),
            9,
            e,
        );
        let right = entry_number(&w, e, ROWS);
        let wrong = [
            4_097,
            8_192,
            right + 65_536,
            right + 16_777_216,
            right + 2_147_483_648,
            2_147_483_647,
            2_147_483_648,
            MOST,
        ];
        for n in wrong {
            cases.refused(
                &format!("rows {n} without bodies in entry {e}"),
                &with_entry(&w, e, ROWS, n),
                7,
                e,
            );
        }
    }
}

fn offsets(cases: &mut Cases) {
    let w = job_w();
    for e in 0..3 {
        let right = entry_number(&w, e, OFFSET);
        let wrong = [
            right - 1,
            right + 1,
            right - 4,
            right + 4,
            right + 256,
            right + 65_536,
            right + 16_777_216,
            right + 2_147_483_648,
            right - 60,
            0,
            104,
            MOST,
        ];
        for n in BTreeSet::from(wrong) {
            cases.refused(
                &format!("offset {n} in entry {e}"),
                &with_entry(&w, e, OFFSET, n),
                8,
                e,
            );
        }
    }
    let set = |numbers: [u32; 3]| {
        let mut file = w.clone();
        for (e, n) in numbers.into_iter().enumerate() {
            set_u32(&mut file, entry_at(e) + OFFSET, n);
        }
        file
    };
    cases.refused("offsets counted from the bodies", &set([0, 16, 40]), 8, 0);
    cases.refused("offsets all the first", &set([60, 60, 60]), 8, 1);
    cases.refused("offsets 1 and 2 swapped", &set([60, 100, 76]), 8, 1);
    cases.refused("offsets backwards", &set([88, 64, 60]), 8, 0);

    // Gaps that the offsets own up to.
    let mut file = set([64, 80, 104]);
    file.splice(60..60, [0; 4]);
    cases.refused("gap before the first body", &file, 8, 0);
    let mut file = set([60, 80, 104]);
    file.splice(76..76, [0; 4]);
    cases.refused("gap before the second body", &file, 8, 1);
    let mut file = set([60, 76, 104]);
    file.splice(100..100, [0; 4]);
    cases.refused("gap before the third body", &file, 8, 2);

    // An empty table has an offset too.
    let empty = straight(&tables(&[1, 2, 4], 0));
    for e in 0..3 {
        for n in [0, 59, 61] {
            cases.refused(
                &format!("empty tables offset {n} in entry {e}"),
                &with_entry(&empty, e, OFFSET, n),
                8,
                e,
            );
        }
    }
}

fn products(cases: &mut Cases) {
    let w = job_w();
    for e in 0..3 {
        let ones = entry_number(&w, e, FIELDS);
        let rows = entry_number(&w, e, ROWS);
        let mut both = |label: &str, fields: u32, rows: u32, number: u32| {
            let file = with_entry(&with_entry(&w, e, FIELDS, fields), e, ROWS, rows);
            cases.refused(&format!("product {label} in entry {e}"), &file, number, e);
        };
        // 4 × fields × rows is 0 in 32 bits
        both("65536 by 65536", 65_536, 65_536, 6);
        both("32768 by 32768", 32_768, 32_768, 6);
        both("2147483648 by 2", 2_147_483_648, 2, 6);
        both("1073741824 by 4096", 1_073_741_824, 4_096, 6);
        both("right fields by 1073741824", ones, 1_073_741_824, 7);
        both("right fields by 2147483648", ones, 2_147_483_648, 7);
        // 4 × fields × rows has the right length in 32 bits
        both("fields one turn on", ones + 1_073_741_824, rows, 6);
        both("fields three turns on", ones + 3_221_225_472, rows, 6);
        both("rows one turn on", ones, rows + 1_073_741_824 / ones, 7);
        both("rows three turns on", ones, rows + 3_221_225_472 / ones, 7);
        both(
            "fields and rows negated",
            ones.wrapping_neg(),
            rows.wrapping_neg(),
            6,
        );
        // fields × rows does not fit 32 bits at all
        both("most by most", MOST, MOST, 6);
        both("right fields by most", ones, MOST, 7);
        both("most by right rows", MOST, rows, 6);
    }
    let wide = straight(&tables(&[0xffff], 0));
    for (label, rows) in [
        ("16 by 67108864", 67_108_864),
        ("16 by 268435456", 268_435_456),
    ] {
        cases.refused(
            &format!("product {label}"),
            &with_entry(&wide, 0, ROWS, rows),
            7,
            0,
        );
    }
    // Two bodies whose lengths together come round to the right end.
    let mut file = straight(&tables(&[1, 2], 0));
    set_u32(&mut file, entry_at(0) + ROWS, 536_870_912);
    set_u32(&mut file, entry_at(1) + ROWS, 536_870_912);
    set_u32(&mut file, entry_at(1) + OFFSET, 44 + 2_147_483_648);
    cases.refused("product of two halves", &file, 7, 0);
}

fn bodies(cases: &mut Cases) {
    let w = job_w();
    for extra in [1, 2, 3, 4, 5, 8, 16] {
        cases.refused(
            &format!("W and {extra} bytes left over"),
            &sized(w.clone(), 104 + extra),
            10,
            0,
        );
    }
    let mut doubled = w.clone();
    doubled.extend(&w);
    cases.refused("W twice", &doubled, 10, 0);

    // The same offsets with one row more or fewer.
    cases.refused("row too many in entry 0", &with_entry(&w, 0, ROWS, 3), 8, 1);
    cases.refused("row too many in entry 1", &with_entry(&w, 1, ROWS, 4), 9, 1);
    cases.refused("row too many in entry 2", &with_entry(&w, 2, ROWS, 2), 9, 2);
    cases.refused("row too few in entry 0", &with_entry(&w, 0, ROWS, 1), 8, 1);
    cases.refused("row too few in entry 1", &with_entry(&w, 1, ROWS, 2), 8, 2);
    cases.refused("row too few in entry 2", &with_entry(&w, 2, ROWS, 0), 10, 0);

    // Where a row moves from one body to the next, only the offset tells.
    let mut moved = straight(&tables(&[1, 1, 1], 2));
    set_u32(&mut moved, entry_at(0) + ROWS, 1);
    set_u32(&mut moved, entry_at(1) + ROWS, 3);
    cases.refused("row moved to entry 1", &moved, 8, 1);
    set_u32(&mut moved, entry_at(1) + OFFSET, 64);
    cases.accepted("row moved to entry 1 with offset", &moved, "none 0 0");

    let one = straight(&[Table::filled(7, 5)]);
    cases.accepted("one body of 60", &one, "none");
    cases.refused("one body of 60 a byte short", &one[..87], 9, 0);
    cases.refused("one body of 60 a byte over", &sized(one.clone(), 89), 10, 0);
    cases.refused("one body of 60 left out", &one[..28], 9, 0);

    let v = job_v();
    for (length, place) in [(91, 0), (115, 1), (131, 2), (147, 3)] {
        cases.refused(&format!("V cut to {length}"), &v[..length], 9, place);
    }
}

fn empty_tables(cases: &mut Cases) {
    for e in 0..3 {
        let mut tables = tables_w();
        tables[e].rows.clear();
        let file = straight(&tables);
        cases.accepted(&format!("W with table {e} empty"), &file, "none 0 1");
        let length = file.len();
        cases.refused(
            &format!("W with table {e} empty a byte over"),
            &sized(file.clone(), length + 1),
            10,
            0,
        );
        let place = if e == 2 { 1 } else { 2 };
        cases.refused(
            &format!("W with table {e} empty a byte short"),
            &file[..length - 1],
            9,
            place,
        );
    }
    for e in 0..8 {
        let mut tables = chain();
        tables[e].rows.clear();
        cases.accepted(
            &format!("chain with table {e} empty"),
            &straight(&tables),
            "none 0 1 2 3 4 5 6",
        );
    }
    for e in 0..3 {
        let mut tables = tables_w();
        for (i, table) in tables.iter_mut().enumerate() {
            if i != e {
                table.rows.clear();
            }
        }
        cases.accepted(
            &format!("W with only table {e} filled"),
            &straight(&tables),
            "none 0 1",
        );
    }
    let emptied = |mut tables: Vec<Table>| {
        tables.iter_mut().for_each(|table| table.rows.clear());
        straight(&tables)
    };
    cases.accepted("W with all tables empty", &emptied(tables_w()), "none 0 1");
    cases.accepted(
        "V with all tables empty",
        &emptied(tables_v()),
        "none 0 1 1",
    );
    cases.accepted(
        "chain with all tables empty",
        &emptied(chain()),
        "none 0 1 2 3 4 5 6",
    );
    cases.refused(
        "triangle with all tables empty",
        &emptied(tables(&[3, 6, 5], 0)),
        11,
        2,
    );
    cases.accepted("P7", &straight(&[Table::new(1, &[&[7], &[7]])]), "none");
    cases.accepted("P8", &straight(&tables(&[1], 0)), "none");
    cases.accepted(
        "P9",
        &straight(&[Table::filled(1, 2), Table::filled(2, 0)]),
        "none 0",
    );
}

fn ears(cases: &mut Cases) {
    let w = job_w();
    cases.accepted("P1", &w, "none 0 1");
    cases.accepted("P3", &job_v(), "none 0 1 1");
    cases.refused("P4", &with_entry(&w, 1, FIELDS, MOST), 6, 1);
    cases.refused("P5 refused", &job(&[0, 2, 1], &tables_w()), 11, 2);
    cases.accepted("P5 accepted", &job(&[1, 0, 2], &tables_w()), "none 0 0");
    cases.refused("P6", &straight(&tables(&[3, 6, 5], 1)), 11, 2);
    cases.accepted("P10", &straight(&tables(&[3, 1, 1], 1)), "none 0 0");

    let four = [3, 6, 5, 7]; // a triangle and the table that covers it
    let comb = [3, 5, 24, 36]; // columns 0 1, 0 2, 3 4, 2 5
    for (name, tables) in [
        ("W", tables_w()),
        ("V", tables_v()),
        ("covered triangle", tables(&four, 1)),
        ("comb", tables(&comb, 1)),
    ] {
        for order in orders(tables.len() as u8) {
            let label = format!("{name} plan {}", words(&order));
            let _ = cases.told(&label, &job(&order, &tables));
        }
    }

    let mut accepted = |label: &str, plan: &[u8], tables: &[Table], parents: &str| {
        cases.accepted(label, &job(plan, tables), parents);
    };
    let onwards = in_order(8);
    let all_zero = "none 0 0 0 0 0 0 0";
    let row = "none 0 1 2 3 4 5 6";

    // Chains
    accepted("chain onwards", &onwards, &chain(), row);
    accepted("chain backwards", &[7, 6, 5, 4, 3, 2, 1, 0], &chain(), row);
    accepted(
        "chain from the middle",
        &[3, 4, 2, 5, 1, 6, 0, 7],
        &chain(),
        "none 0 0 1 2 3 4 5",
    );
    accepted(
        "chain from table 2",
        &[2, 1, 0, 3, 4, 5, 6, 7],
        &chain(),
        "none 0 1 0 3 4 5 6",
    );
    accepted(
        "chain with tables 0 and 1 swapped",
        &[1, 0, 2, 3, 4, 5, 6, 7],
        &chain(),
        "none 0 0 2 3 4 5 6",
    );

    // Stars: a centre and seven tables that each share one column with it
    let star: Vec<u32> = [0x7f]
        .into_iter()
        .chain((0..7).map(|i| 0x101 << i))
        .collect();
    let star = tables(&star, 1);
    accepted("star centre first", &onwards, &star, all_zero);
    accepted(
        "star centre first others backwards",
        &[0, 7, 6, 5, 4, 3, 2, 1],
        &star,
        all_zero,
    );
    accepted(
        "star centre second",
        &[1, 0, 2, 3, 4, 5, 6, 7],
        &star,
        "none 0 1 1 1 1 1 1",
    );
    accepted(
        "star centre second after last",
        &[7, 0, 1, 2, 3, 4, 5, 6],
        &star,
        "none 0 1 1 1 1 1 1",
    );

    // Stars around one column that all share
    let hub: Vec<u32> = (0..8).map(|i| 1 | 2 << i).collect();
    let hub = tables(&hub, 1);
    accepted("one column shared", &onwards, &hub, all_zero);
    accepted(
        "one column shared backwards",
        &[7, 6, 5, 4, 3, 2, 1, 0],
        &hub,
        all_zero,
    );
    accepted(
        "one column shared mixed",
        &[4, 0, 6, 2, 7, 1, 5, 3],
        &hub,
        all_zero,
    );

    // Nothing shared, everything shared, each inside the next
    let alone = tables(&[0, 1, 2, 3, 4, 5, 6, 7].map(|i| 1 << i), 1);
    accepted("no shared columns", &onwards, &alone, all_zero);
    accepted(
        "no shared columns mixed",
        &[4, 0, 6, 2, 7, 1, 5, 3],
        &alone,
        all_zero,
    );
    accepted(
        "no shared columns two tables",
        &[1, 0],
        &tables(&[3, 12], 1),
        "none 0",
    );
    accepted("same columns", &onwards, &tables(&[9; 8], 1), all_zero);
    let nested = tables(&[1, 3, 7, 15, 31, 63, 127, 255], 1);
    accepted("nested growing", &onwards, &nested, row);
    accepted(
        "nested shrinking",
        &[7, 6, 5, 4, 3, 2, 1, 0],
        &nested,
        all_zero,
    );
    accepted(
        "nested from the middle",
        &[3, 4, 2, 5, 1, 6, 0, 7],
        &nested,
        "none 0 0 1 0 3 0 5",
    );

    // A table that shares only some keys is no parent; a nearer one that has all keys is not taken.
    accepted(
        "some keys are not enough",
        &[0, 1, 2],
        &tables(&[3, 7, 6], 1),
        "none 0 1",
    );
    accepted(
        "first of three that fit",
        &[0, 1, 2, 3, 4],
        &tables(&[1, 6, 14, 30, 6], 1),
        "none 0 1 2 1",
    );
    accepted(
        "no keys after a chain",
        &[0, 1, 2, 3],
        &tables(&[3, 6, 12, 48], 1),
        "none 0 1 0",
    );
    accepted(
        "two chains taking turns",
        &onwards,
        &tables(&[3, 0x300, 6, 0x600, 12, 0xc00, 24, 0x1800], 1),
        "none 0 0 1 2 3 4 5",
    );
    accepted(
        "a column comes back",
        &[0, 1, 2, 3],
        &tables(&[3, 6, 12, 1], 1),
        "none 0 1 0",
    );
    accepted(
        "columns 31 and 0",
        &[0, 1, 2],
        &tables(&[0x8000_0001, 0xc000_0000, 0x4000_0000], 1),
        "none 0 1",
    );
    accepted(
        "16 columns share 15",
        &[0, 1, 2],
        &tables(&[0xffff, 0x1_fffe, 0x3_fffc], 1),
        "none 0 1",
    );
    accepted(
        "plan and contents differ",
        &[2, 0, 3, 1],
        &tables(&[6, 24, 3, 12], 1),
        "none 0 1 2",
    );

    let mut lacking = |label: &str, plan: &[u8], masks: &[u32], place: usize| {
        cases.refused(label, &job(plan, &tables(masks, 1)), 11, place);
    };
    let chain: Vec<u32> = chain().iter().map(|table| table.mask).collect();
    let star: Vec<u32> = star.iter().map(|table| table.mask).collect();
    lacking(
        "chain every other table first",
        &[0, 2, 4, 6, 1, 3, 5, 7],
        &chain,
        4,
    );
    lacking("chain from both ends", &[0, 7, 1, 6, 2, 5, 3, 4], &chain, 7);
    lacking("chain halves swapped", &[4, 5, 6, 7, 0, 1, 2, 3], &chain, 7);
    for p in 1..7u8 {
        // Table p stands after table p + 1 and shares a column with either neighbour.
        let mut order = in_order(8);
        order.swap(usize::from(p), usize::from(p) + 1);
        let label = format!("chain with tables {p} and {} swapped", p + 1);
        lacking(&label, &order, &chain, usize::from(p) + 1);
    }
    for p in 2..8 {
        let mut order: Vec<u8> = (1..8).collect();
        order.insert(p, 0);
        lacking(&format!("star centre at position {p}"), &order, &star, p);

        // Columns 0 1, 1 2 and so on, then a table with column 0 and the last one, then others.
        let mut masks: Vec<u32> = (0..8).map(|i| 3 << i).collect();
        masks[p] = 1 | 1 << p;
        for (i, mask) in masks.iter_mut().enumerate().skip(p + 1) {
            *mask = 1 << (16 + i);
        }
        lacking(
            &format!("round closed at position {p}"),
            &in_order(8),
            &masks,
            p,
        );

        // A triangle that ends at position p, with tables that share nothing around it.
        let mut masks: Vec<u32> = (0..8).map(|i| 1 << (16 + i)).collect();
        masks[p - 2] = 3;
        masks[p - 1] = 6;
        masks[p] = 5;
        lacking(
            &format!("triangle ends at position {p}"),
            &in_order(8),
            &masks,
            p,
        );
    }
    lacking(
        "triangles end at 2 and 5",
        &in_order(6),
        &[3, 6, 5, 24, 48, 40],
        2,
    );
    lacking(
        "triangles end at 4 and 7",
        &in_order(8),
        &[256, 512, 3, 6, 5, 24, 48, 40],
        4,
    );
    lacking(
        "triangle of table numbers 5 3 1",
        &[0, 5, 2, 3, 4, 1],
        &[256, 3, 512, 6, 1024, 5],
        5,
    );
    lacking(
        "triangle in columns 29 to 31",
        &[0, 1, 2],
        &[0xc000_0000, 0x6000_0000, 0xa000_0000],
        2,
    );
    lacking("keys in three tables", &in_order(4), &[1, 2, 4, 7], 3);
    lacking("cover comes too late", &in_order(4), &[3, 6, 5, 7], 2);
    lacking(
        "16 columns split over two",
        &in_order(3),
        &[0xff, 0xff00, 0xffff],
        2,
    );
}

// ---- pairs of faults ------------------------------------------------------

/// A file with these faults, given as (number, place), and otherwise good:
/// tables of one column and one row. With 11 the first three tables are a
/// triangle and the fourth is free for other faults. A mask fault is mask 0, or
/// 17 columns if `wide`.
fn faulty(faults: &[(u32, usize)], wide: bool) -> Vec<u8> {
    let has = |number: u32| faults.iter().any(|f| f.0 == number);
    let base: &[u32] = if has(11) { &[3, 6, 5, 8] } else { &[1, 2, 4] };
    let mut tables = tables(base, 1);
    for (e, table) in tables.iter_mut().enumerate() {
        let mask = match (faults.contains(&(5, e)), wide) {
            (false, _) => table.mask,
            (true, false) => 0,
            (true, true) => 0xffff_8000,
        };
        let rows = if faults.contains(&(7, e)) { 4_097 } else { 1 };
        *table = Table::filled(mask, rows);
    }
    if has(2) {
        // Nine tables; with 1 the last two are the ones that fill the file up.
        tables.resize(if has(1) { 7 } else { 9 }, Table::filled(16, 0));
    }
    if has(1) {
        tables = filled_up(tables, 65_536);
    }

    let mut file = straight(&tables);
    if has(4) {
        // Plan byte 7: nonzero after the plan, or for nine tables a repeated 0.
        file[11] = u8::from(tables.len() < 8);
    }
    for &(number, e) in faults {
        let (which, more) = match number {
            6 => (FIELDS, 1),
            8 => (OFFSET, 4),
            _ => continue,
        };
        let right = entry_number(&file, e, which);
        set_u32(&mut file, entry_at(e) + which, right + more);
    }
    for &(number, e) in faults {
        let through_e: usize = tables.iter().take(e + 1).map(Table::body_len).sum();
        match number {
            3 => file.truncate(entry_at(tables.len()) - 1),
            9 => file.truncate(entry_at(tables.len()) + through_e - 1),
            10 => file.push(0),
            _ => {}
        }
    }
    file
}

fn pairs(cases: &mut Cases) {
    // Each of these faults alone, so that the pairs below are known to be made of them.
    for number in 1..=11u32 {
        let place = [0, 0, 0, 0, 7, 1, 1, 1, 1, 1, 0, 2][number as usize];
        let alone = faulty(&[(number, place)], false);
        assert_eq!(
            read(&alone),
            Err(Refusal {
                number,
                place: place as u32
            })
        );
    }

    // Pairs with at most one of 5 to 9.
    let of_entry = |number: u32| (5..=9).contains(&number);
    for a in 1..=11 {
        for b in a + 1..=11 {
            let impossible = [(3, 10), (9, 10)].contains(&(a, b));
            let special = [(1, 2), (1, 3), (1, 9), (1, 10)].contains(&(a, b));
            if impossible || special || of_entry(a) && of_entry(b) {
                continue;
            }
            let place = |number| match number {
                4 => 7,
                5..=9 if b == 11 => 3,
                11 => 2,
                _ => 0,
            };
            let (first, second) = ((a, place(a)), (b, place(b)));
            cases.pair(
                &format!("pair {a} and {b}"),
                &faulty(&[first, second], false),
                first,
                second,
            );
        }
    }

    // Pairs with 1 that are made another way.
    cases.pair(
        "pair 1 and 2",
        &faulty(&[(1, 0), (2, 0)], false),
        (1, 0),
        (2, 0),
    );
    cases.pair("pair 1 and 2 short", &[0; 11], (1, 0), (2, 0));
    cases.pair("pair 1 and 3", &with_u32(vec![0; 11], 0, 1), (1, 0), (3, 0));
    let great = with_u32(vec![0; 65_536], 0, MOST);
    cases.pair("pair 1 and 3 with great k", &great, (1, 0), (3, 0));
    let past = filled_up(tables(&[1], 1), 65_540);
    cases.pair(
        "pair 1 and 9",
        &sized(straight(&past), 65_536),
        (1, 0),
        (9, 2),
    );
    let left = filled_up(tables(&[1], 1), 65_532);
    cases.pair(
        "pair 1 and 10",
        &sized(straight(&left), 65_536),
        (1, 0),
        (10, 0),
    );

    // Other ways to have a fault in k and one after it.
    let w = job_w();
    let no_tables = with_u32(w.clone(), 0, 0);
    cases.pair("pair 2 and 4 k 0", &no_tables, (2, 0), (4, 1));
    cases.pair("pair 2 and 10 k 0", &vec![0; 13], (2, 0), (10, 0));
    let great = with_u32(w.clone(), 0, MOST);
    cases.pair("pair 2 and 3 great k", &great, (2, 0), (3, 0));
    cases.pair(
        "pair 3 and 4 in the plan",
        &with_plan(&w[..59], &[(1, 3)]),
        (3, 0),
        (4, 1),
    );
    cases.pair(
        "pair 4 and 5 in the plan",
        &with_plan(&with_entry(&w, 0, MASK, 0), &[(2, 3)]),
        (4, 2),
        (5, 0),
    );

    // 5 to 9 twice in one entry: the lower number is given.
    for e in 0..3 {
        for a in 5..=9 {
            for b in a + 1..=9 {
                for wide in [false, true] {
                    // Mask 0 has no body to end past the file; 4,097 rows of 17 columns are too long.
                    if (a == 5 && b == 9 && !wide) || (wide && (a != 5 || b == 7)) {
                        continue;
                    }
                    let label = format!(
                        "pair {a} and {b} in entry {e}{}",
                        if wide { " wide" } else { "" }
                    );
                    cases.pair(&label, &faulty(&[(a, e), (b, e)], wide), (a, e), (b, e));
                }
            }
        }
    }

    // 5 to 9 in two entries: the earlier entry is given, also with the higher number.
    for (i, j) in [(0, 1), (1, 2)] {
        for a in 5..=9 {
            for b in 5..=9 {
                let label = format!("pair {a} at {i} and {b} at {j}");
                cases.pair(&label, &faulty(&[(a, i), (b, j)], false), (a, i), (b, j));
            }
        }
    }
    for a in 5..=9 {
        for b in 5..=9 {
            if a != 7 && b != 7 {
                let label = format!("pair {a} at 0 and {b} at 2");
                cases.pair(&label, &faulty(&[(a, 0), (b, 2)], true), (a, 0), (b, 2));
            }
        }
    }

    // An entry's fault comes before the plan's order, and the plan's bytes before both.
    let round = straight(&tables(&[3, 6, 5], 1));
    for e in 0..3 {
        let fields = with_entry(&round, e, FIELDS, 1);
        cases.pair(
            &format!("triangle with fields 1 in entry {e}"),
            &fields,
            (6, e),
            (11, 2),
        );
        let offset = with_entry(&round, e, OFFSET, 0);
        cases.pair(
            &format!("triangle with offset 0 in entry {e}"),
            &offset,
            (8, e),
            (11, 2),
        );
    }
    for extra in [1, 4] {
        let label = format!("triangle and {extra} bytes left over");
        cases.pair(&label, &sized(round.clone(), 84 + extra), (10, 0), (11, 2));
    }
    cases.pair("triangle cut to 83", &round[..83], (9, 2), (11, 2));
}
