//! Document 01's examples through the safe functions.

use super::*;
use crate::{jobs, STEP_LIMIT};

const EMPTY: u32 = u32::MAX;
const NO_VALUE: i32 = -7;

fn refused<T>(number: u32, place: usize) -> Result<T, Refusal> {
    Err(Refusal { number, place })
}

/// A run to its end in one call: its state, marks and area.
fn ended(file: &[u8]) -> (State, Vec<u8>, [u32; 12]) {
    let mut marks = vec![9; read(file).unwrap().rows()];
    let mut area = [EMPTY; 12];
    let fresh = begin(file, &mut marks).unwrap();
    let (reason, state) = run(file, &fresh, &mut marks, 100, &mut area).unwrap();
    assert_eq!((reason, state.kind), (Reason::Ended, 0));
    (state, marks, area)
}

fn counts(state: &State) -> (u32, u32, u32) {
    (state.lookups, state.steps, state.records)
}

#[test]
fn p1_w_is_accepted() {
    let job = read(&jobs::w()).unwrap();
    assert_eq!((job.k, job.plan), (3, [0, 1, 2, 0, 0, 0, 0, 0]));
    assert_eq!(job.parents, [0, 0, 1, 0, 0, 0, 0, 0]);
    let second = Entry {
        fields: 2,
        rows: 3,
        mask: 6,
        offset: 76,
    };
    assert_eq!(job.entries[1], second);
    assert_eq!(job.entries[3..], [Entry::default(); 5]);
    assert_eq!((job.rows(), job.columns()), (6, 3));
}

#[test]
fn p2_w_to_the_end() {
    let (state, marks, area) = ended(&jobs::w());
    assert_eq!(counts(&state), (5, 12, 1));
    assert_eq!(marks, [0, 0, 1, 0, 1, 0]);
    assert_eq!(area[..4], [1, 1, 0, EMPTY]);
    let numbers: [u32; 14] = state.into();
    assert_eq!(numbers, [0, 0, 0, 0, 0, 0, 0, 0, 0, 0, 0, 12, 5, 1]);
}

#[test]
fn p3_v_to_the_end() {
    let (state, marks, area) = ended(&jobs::v());
    assert_eq!(counts(&state), (6, 11, 0));
    assert_eq!(marks, [0, 1, 1, 1, 0, 0, 0, 0]);
    assert_eq!(area, [EMPTY; 12]);
    assert_eq!(read(&jobs::v()).unwrap().parents, [0, 0, 1, 1, 0, 0, 0, 0]);
}

#[test]
fn p4_to_p6_refused_files() {
    let mut file = jobs::w();
    file[28..32].fill(255);
    assert_eq!(read(&file), refused(6, 1));
    let mut turned = jobs::w();
    turned[4..7].copy_from_slice(&[0, 2, 1]);
    assert_eq!(read(&turned), refused(11, 2));
    turned[4..7].copy_from_slice(&[1, 0, 2]);
    assert_eq!(read(&turned).unwrap().parents, [0; 8]);
    let round = jobs::job(&[0, 1, 2], &[(3, &[]), (6, &[]), (5, &[])]);
    assert_eq!(read(&round), refused(11, 2));
    assert_eq!(read(&[]), refused(1, 0));
    assert_eq!(read(&[0; 12]), refused(2, 0));
}

#[test]
fn p7_p8_p9_to_the_end() {
    let (state, marks, area) = ended(&jobs::p7());
    assert_eq!((counts(&state), marks), ((0, 3, 2), vec![0, 0]));
    assert_eq!(area[..3], [0, 1, EMPTY]);
    let (state, marks, _) = ended(&jobs::p8());
    assert_eq!((counts(&state), marks), ((0, 1, 0), vec![]));
    let (state, marks, _) = ended(&jobs::p9());
    assert_eq!((counts(&state), marks), ((2, 5, 0), vec![1, 1]));
}

#[test]
fn limits() {
    let one = |mask: u32, rows: usize| {
        let values = vec![1; rows * mask.count_ones() as usize];
        read(&jobs::job(&[0], &[(mask, &values)])).map(|job| job.rows())
    };
    assert_eq!(one(1, 4_096), Ok(4_096));
    assert_eq!(one(1, 4_097), refused(7, 0));
    assert_eq!(one(0xffff, 1), Ok(1));
    assert_eq!(one(0x1_ffff, 1), refused(5, 0));
    assert_eq!(one(0xff, 2_047), Ok(2_047)); // 65,532 bytes
    assert_eq!(read(&[1; 65_536]), refused(1, 0));
    assert_eq!(read(&[0; 65_535]), refused(2, 0));
}

#[test]
fn budget_0_on_a_fresh_state_changes_nothing() {
    let fresh = begin(&jobs::w(), &mut [0; 6]).unwrap();
    let mut marks = [0, 0, 5, 0, 0, 0];
    let mut area = [EMPTY; 3];
    let answer = run(&jobs::w(), &fresh, &mut marks, 0, &mut area);
    assert_eq!(answer, Ok((Reason::BudgetSpent, fresh)));
    assert_eq!((marks, area), ([0, 0, 5, 0, 0, 0], [EMPTY; 3]));
}

#[test]
fn the_reasons() {
    let w = jobs::w();
    let reason = |steps, kind, area: &mut [u32]| {
        let state = State {
            kind,
            steps,
            ..State::default()
        };
        let (reason, _) = run(&w, &state, &mut [0; 6], 3, area).unwrap();
        reason
    };
    assert_eq!(reason(STEP_LIMIT, 0, &mut []), Reason::Ended);
    assert_eq!(reason(STEP_LIMIT, 1, &mut []), Reason::StepLimit);
    assert_eq!(reason(0, 1, &mut [0; 3]), Reason::BudgetSpent);
    assert_eq!(reason(0, 1, &mut [0; 2]), Reason::NoRoom);
}

#[test]
fn short_areas() {
    let w = jobs::w();
    let mut marks = [3; 5];
    assert_eq!(begin(&w, &mut marks), refused(12, 0));
    let fresh = State::from([1, 0, 0, 0, 0, 0, 0, 0, 0, 0, 0, 0, 0, 0]);
    let mut area = [EMPTY; 3];
    assert_eq!(run(&w, &fresh, &mut marks, 9, &mut area), refused(12, 0));
    assert_eq!((marks, area), ([3; 5], [EMPTY; 3]));
    let mut values = [NO_VALUE; 2];
    assert_eq!(join_values(&w, &[1, 1, 0], &mut values), refused(15, 0));
    assert_eq!(values, [NO_VALUE; 2]);
}

#[test]
fn a_longer_mark_area_keeps_its_other_bytes() {
    let mut marks = [3; 8];
    let fresh = begin(&jobs::w(), &mut marks).unwrap();
    assert_eq!(marks, [0, 0, 0, 0, 0, 0, 3, 3]);
    run(&jobs::w(), &fresh, &mut marks, 100, &mut [0; 6]).unwrap();
    assert_eq!(marks, [0, 0, 1, 0, 1, 0, 3, 3]);
}

#[test]
fn forged_states() {
    let w = jobs::w();
    let answer = |numbers: [u32; 14]| {
        let mut marks = [0; 6];
        let mut area = [EMPTY; 6];
        let answer = run(&w, &State::from(numbers), &mut marks, 1, &mut area);
        if answer.is_err() {
            assert_eq!((marks, area), ([0; 6], [EMPTY; 6]));
        }
        answer.map(|(_, state)| <[u32; 14]>::from(state))
    };
    // It fits, though no run reaches it: row 2 of table 1 does not agree with row 0 of table 0.
    assert_eq!(
        answer([2, 2, 0, 0, 2, 0, 0, 0, 0, 0, 0, 9, 4, 2]),
        Ok([1, 1, 3, 0, 0, 0, 0, 0, 0, 0, 0, 10, 5, 2])
    );
    assert_eq!(
        answer([1, 3, 0, 0, 0, 0, 0, 0, 0, 0, 0, 0, 0, 0]),
        refused(13, 0)
    );
    assert_eq!(
        answer([2, 0, 0, 0, 0, 0, 0, 0, 0, 0, 0, 0, 0, 0]),
        refused(13, 0)
    );
    assert_eq!(
        answer([1, 0, 0, 0, 0, 0, 0, 0, 0, 0, 0, 4, 5, 0]),
        refused(13, 0)
    );
    assert_eq!(
        answer([3, 0, 0, 0, 0, 0, 0, 0, 0, 0, 0, 0, 0, 0]),
        refused(13, 0)
    );
    assert_eq!(answer([u32::MAX; 14]), refused(13, 0));
}

#[test]
fn numbers_of_no_state_keep_their_place_in_the_order() {
    let none = State {
        kind: 3,
        ..State::default()
    };
    let answer = |file: &[u8], marks: &mut [u8]| run(file, &none, marks, 1, &mut []).unwrap_err();
    assert_eq!(answer(&[0; 11], &mut []).number, 1);
    assert_eq!(answer(&jobs::w(), &mut [0; 5]).number, 12);
    assert_eq!(answer(&jobs::w(), &mut [0; 6]).number, 13);
}

#[test]
fn values_of_w() {
    let mut values = [NO_VALUE; 4];
    assert_eq!(join_values(&jobs::w(), &[1, 1, 0], &mut values), Ok(3));
    assert_eq!(values, [2, 20, 6, NO_VALUE]);
    for record in [&[1, 1][..], &[1, 1, 0, 0], &[0, 1, 0], &[2, 1, 0], &[]] {
        let mut values = [NO_VALUE; 2];
        assert_eq!(join_values(&jobs::w(), record, &mut values), refused(14, 0));
        assert_eq!(values, [NO_VALUE; 2]);
    }
}

#[test]
fn p12_values_are_signed() {
    let file = jobs::job(&[0], &[(3, &[i32::MIN, -1])]);
    let mut values = [NO_VALUE; 2];
    assert_eq!(join_values(&file, &[0], &mut values), Ok(2));
    assert_eq!(values, [i32::MIN, -1]);
}

#[test]
fn states_and_numbers() {
    let numbers: [u32; 14] = std::array::from_fn(|i| 100 + i as u32);
    let state = State::from(numbers);
    assert_eq!((state.kind, state.position, state.start), (100, 101, 102));
    assert_eq!(state.chosen, [103, 104, 105, 106, 107, 108, 109, 110]);
    assert_eq!(counts(&state), (112, 111, 113));
    assert_eq!(<[u32; 14]>::from(state), numbers);
}

#[test]
fn a_refusal_is_said_as_the_program_says_it() {
    let refusal = read(&jobs::w()[..99]).unwrap_err();
    assert_eq!(refusal.to_string(), "refused 9 at 1");
}
