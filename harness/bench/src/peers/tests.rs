//! All peers agree with each other, with the nested-loop join and with the
//! model of document 01's steps.

use korrigwen_harness::build::{
    job, job_p7, job_p8, job_p9, job_v, job_w, tables_v, tables_w, Table,
};
use korrigwen_harness::dice::Dice;
use korrigwen_harness::join::natural_join;
use korrigwen_harness::{reader, runner};

use super::{Counts, Input, Kind, Peer, Records};
use crate::measure::check;
use crate::readings;

/// Runs all peers and holds them against Korrigwen, and Korrigwen against the
/// harness. Gives Korrigwen's counts.
fn agree(file: Vec<u8>) -> Counts {
    let input = Input::new(file);
    let mut peers: Vec<Box<dyn Peer + '_>> =
        Kind::ALL.iter().map(|kind| kind.prepare(&input)).collect();
    let counts: Vec<Counts> = peers.iter_mut().map(|peer| peer.run()).collect();
    check(&input, &Kind::ALL, &mut peers, &counts);
    agree_with_harness(&input.file, peers[0].as_mut(), counts[0]);
    counts[0]
}

fn agree_with_harness(file: &[u8], korrigwen: &mut dyn Peer, counts: Counts) {
    let read = reader::read(file).expect("the job is accepted");
    let mut marks = vec![0; runner::total_rows(&read)];
    let mut area = vec![0; 100_000];
    let fresh = runner::begin(file, &mut marks).expect("it begins");
    let (reason, end) =
        runner::run(file, fresh, &mut marks, 1_000_000, &mut area).expect("it runs");
    assert_eq!(reason, runner::Reason::Ended);
    assert_eq!(counts.steps, Some(end.steps.into()));
    assert_eq!(counts.lookups, Some(end.lookups.into()));
    assert_eq!(korrigwen.marks(), Some(&marks[..]));
    let Records::Rows(rows) = korrigwen.records() else {
        panic!("Korrigwen gives row numbers");
    };
    assert_eq!(rows, natural_join(file, &read).concat());
}

fn counted(file: Vec<u8>) -> (Option<u64>, u64, Option<u64>) {
    let counts = agree(file);
    (counts.lookups, counts.records, counts.steps)
}

#[test]
fn documents_jobs() {
    assert_eq!(counted(job_w()), (Some(5), 1, Some(12)));
    assert_eq!(counted(job_v()), (Some(6), 0, Some(11)));
    assert_eq!(counted(job_p7()), (Some(0), 2, Some(3)));
    assert_eq!(counted(job_p8()), (Some(0), 0, Some(1)));
    assert_eq!(counted(job_p9()), (Some(2), 0, Some(5)));
}

#[test]
fn other_plans() {
    agree(job(&[1, 0, 2], &tables_w()));
    agree(job(&[1, 0, 3, 2], &tables_v()));
}

/// A job with random masks and values, accepted or not. Few columns, rows and
/// values, so that rows agree often.
fn random_job(dice: &mut Dice) -> Vec<u8> {
    let k = 1 + dice.below(5);
    let columns = 1 + dice.below(8);
    let tables: Vec<Table> = (0..k).map(|_| random_table(dice, columns)).collect();
    job(&dice.order(k), &tables)
}

fn random_table(dice: &mut Dice, columns: usize) -> Table {
    let mask = loop {
        let mask = (0..columns).fold(0, |mask, c| mask | (dice.below(2) as u32) << c);
        if mask != 0 {
            break mask;
        }
    };
    let values = 1 + dice.below(3);
    let rows = (0..dice.below(8))
        .map(|_| {
            (0..mask.count_ones())
                .map(|_| [-1, i32::MIN, 7][dice.below(values)])
                .collect()
        })
        .collect();
    Table { mask, rows }
}

/// A job of up to 8 tables that is accepted by the way it is made: a table has
/// some columns of one earlier table, and some of its own.
fn grown_job(dice: &mut Dice) -> Vec<u8> {
    let k = 1 + dice.below(8);
    let mut masks = vec![0b111_u32];
    for at in 1..k {
        let shared = masks[dice.below(at)] & dice.number();
        let own = 0b111 << (3 * at) & dice.number();
        masks.push(match shared | own {
            0 => 1 << (3 * at),
            mask => mask,
        });
    }
    let row = |dice: &mut Dice, mask: u32| {
        let value = |_| dice.below(2) as i32;
        (0..mask.count_ones()).map(value).collect()
    };
    let table = |&mask| Table {
        mask,
        rows: (0..dice.below(4)).map(|_| row(dice, mask)).collect(),
    };
    let tables: Vec<Table> = masks.iter().map(table).collect();
    let plan: Vec<u8> = (0..k as u8).collect();
    job(&plan, &tables)
}

#[test]
fn grown_jobs() {
    let mut dice = Dice::seeded(3);
    for _ in 0..400 {
        agree(grown_job(&mut dice));
    }
}

#[test]
fn random_jobs() {
    let mut dice = Dice::seeded(1);
    let mut with_records = 0;
    let mut with_marks = 0;
    for _ in 0..4_000 {
        let file = random_job(&mut dice);
        if crate::job::read(&file).is_ok() {
            let counts = agree(file);
            with_records += u32::from(counts.records > 0);
            with_marks += u32::from(counts.lookups > Some(counts.records));
        }
    }
    assert!(
        with_records > 300 && with_marks > 300,
        "{with_records} {with_marks}"
    );
}

#[test]
fn random_files_are_read_alike() {
    let mut dice = Dice::seeded(2);
    for _ in 0..20_000 {
        let mut file = random_job(&mut dice);
        let at = dice.below(file.len().min(100));
        file[at] = dice.below(20) as u8;
        readings::check("a random file", &file);
    }
}
