//! Forged states: fitting ones that no run need have reached, and ones that do
//! not fit in one single respect (document 01, "The steps of a run").

use super::kinds::*;
use crate::dice::Dice;
use crate::reader::Job;
use crate::runner::{Kind, State, FLAT, STEP_LIMIT};

/// The single respects in which a state can fail to fit, and arbitrary numbers.
pub const MISFITS: [&str; 13] = [
    ADVANCE_TOO_FAR,
    LOOKUP_TOO_FAR,
    LOOKUP_AT_ROOT,
    ENDED_WITH_POSITION,
    CHOSEN_TOO_HIGH,
    UNUSED_CHOSEN,
    START_TOO_HIGH,
    UNUSED_START,
    TOO_MANY_STEPS,
    TOO_MANY_LOOKUPS,
    TOO_MANY_RECORDS,
    NO_KIND,
    ARBITRARY_STATE,
];

/// The row counts of a job's tables, in plan order.
pub fn row_counts(job: &Job) -> Vec<u32> {
    let rows = |&table: &u8| job.entries[usize::from(table)].rows;
    job.plan.iter().map(rows).collect()
}

/// Any fitting state, at a position before which every table has a row.
pub fn fitting(dice: &mut Dice, job: &Job) -> State {
    let rows = row_counts(job);
    let filled = rows.iter().take_while(|&&count| count > 0).count();
    let at = dice.below(rows.len().min(filled + 1));
    let mut state = counted(dice, State::fresh());
    if dice.once_in(12) {
        state.kind = Kind::Ended;
        return state;
    }
    state.at = at as u32;
    for (chosen, &count) in state.chosen.iter_mut().zip(&rows[..at]) {
        *chosen = dice.below(count as usize) as u32;
    }
    if at > 0 && dice.once_in(2) {
        state.kind = Kind::Lookup;
    } else {
        state.start = dice.below(rows[at] as usize + 1) as u32;
    }
    state
}

/// The state with any counts that fit.
fn counted(dice: &mut Dice, state: State) -> State {
    let any = dice.below(STEP_LIMIT as usize) as u32;
    let steps = dice.one(&[0, 1, 50, any]);
    with_steps(dice, state, steps)
}

/// The state a few steps before the limit, or at it.
pub fn near_step_limit(dice: &mut Dice, state: State) -> State {
    let before = dice.below(12) as u32;
    with_steps(dice, state, STEP_LIMIT - before)
}

fn with_steps(dice: &mut Dice, state: State, steps: u32) -> State {
    let mut part = || {
        let any = dice.below(steps as usize + 1) as u32;
        dice.one(&[0, any, steps])
    };
    State {
        steps,
        lookups: part(),
        records: part(),
        ..state
    }
}

/// A fitting state made unfit in this respect, or none if the drawn one cannot
/// be.
pub fn misfit(dice: &mut Dice, job: &Job, respect: &str) -> Option<[u32; FLAT]> {
    let mut state = fitting(dice, job);
    let any = dice.number();
    match respect {
        ADVANCE_TOO_FAR | LOOKUP_TOO_FAR | LOOKUP_AT_ROOT | ENDED_WITH_POSITION => {
            state = misplaced(dice, job, state, respect);
        }
        CHOSEN_TOO_HIGH | UNUSED_CHOSEN | START_TOO_HIGH | UNUSED_START => {
            state = wrong_row(dice, job, state, respect)?;
        }
        TOO_MANY_STEPS => {
            state.steps = dice.one(&[STEP_LIMIT + 1, any.max(STEP_LIMIT + 1), u32::MAX]);
        }
        TOO_MANY_LOOKUPS => {
            state.lookups = dice.one(&[state.steps + 1, any.max(state.steps + 1)]);
        }
        TOO_MANY_RECORDS => {
            state.records = dice.one(&[state.steps + 1, any.max(state.steps + 1)]);
        }
        _ => return Some(no_state(dice, &state, respect)),
    }
    Some(state.flat())
}

/// "the position exists (a lookup: 1 to k−1)": a state at one that does not.
fn misplaced(dice: &mut Dice, job: &Job, state: State, respect: &str) -> State {
    let k = job.k as u32;
    let any = dice.number();
    let far = dice.one(&[k, k + 1, 8.max(k), 256 + k - 1, any.max(k), u32::MAX]);
    let (kind, at) = match respect {
        ADVANCE_TOO_FAR => (Kind::Advance, far),
        LOOKUP_TOO_FAR => (Kind::Lookup, far),
        LOOKUP_AT_ROOT => (Kind::Lookup, 0),
        _ => (Kind::Ended, dice.one(&[1, far, k])),
    };
    State {
        kind,
        at,
        start: 0,
        chosen: [0; 8],
        ..state
    }
}

/// A chosen or starting row that is not there, or not 0 though it is unused.
fn wrong_row(dice: &mut Dice, job: &Job, mut state: State, respect: &str) -> Option<State> {
    let rows = row_counts(job);
    let at = state.at as usize;
    let any = dice.number();
    let from = |least: u32| [least, least, least + 1, any.max(least), u32::MAX];
    match respect {
        CHOSEN_TOO_HIGH if at > 0 => {
            let p = dice.below(at);
            state.chosen[p] = dice.one(&from(rows[p]));
        }
        UNUSED_CHOSEN => {
            let p = at + dice.below(8 - at);
            state.chosen[p] = dice.one(&from(1));
        }
        START_TOO_HIGH if state.kind == Kind::Advance => {
            state.start = dice.one(&from(rows[at] + 1));
        }
        UNUSED_START if state.kind != Kind::Advance => state.start = dice.one(&from(1)),
        _ => return None,
    }
    Some(state)
}

/// Numbers of no state: a kind over 2, or arbitrary numbers.
pub fn no_state(dice: &mut Dice, state: &State, respect: &str) -> [u32; FLAT] {
    let mut numbers = state.flat();
    if respect == NO_KIND {
        let any = dice.number().max(3);
        numbers[0] = dice.one(&[3, 4, 256 + numbers[0], 0x8000_0001, any, u32::MAX]);
        return numbers;
    }
    for number in &mut numbers {
        let any = dice.number();
        *number = dice.one(&[0, 1, any % 8, any]);
    }
    numbers
}

#[cfg(test)]
mod tests {
    use super::*;
    use crate::differential::shapes;
    use crate::reader::read;
    use crate::runner::fits;

    #[test]
    fn fitting_states_fit_and_others_do_not() {
        let mut dice = Dice::seeded(5);
        for _ in 0..3_000 {
            let job = read(&shapes::grown(&mut dice).file()).unwrap();
            let state = fitting(&mut dice, &job);
            assert!(fits(&job, &state), "{state:?}");
            assert!(fits(&job, &near_step_limit(&mut dice, state)));
            for respect in MISFITS
                .iter()
                .filter(|&&respect| respect != ARBITRARY_STATE)
            {
                let Some(numbers) = misfit(&mut dice, &job, respect) else {
                    continue;
                };
                let state = State::from_flat(&numbers);
                assert!(!state.is_some_and(|state| fits(&job, &state)), "{respect}");
            }
        }
    }
}
