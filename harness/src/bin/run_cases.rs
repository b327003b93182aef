//! Writes the cases for beginning, running and joining values: the input
//! frames to the file named first, the expected output lines to the file named
//! second.
//!
//! `frames` says what a frame is, `lines` what is printed. Areas are lent with
//! every place holding 4,294,967,295, value areas with every place holding -7.
//!
//! The answers are the model's (`runner`, `join`). Where the document settles
//! an answer at once it is stated here by hand too, and every walk that
//! reaches its end is held against the nested-loop join and document 01's
//! bounds.

use std::collections::BTreeSet;

use korrigwen_harness::build::{
    entry_at, job, job_p7, job_p8, job_p9, job_v, job_w, set_u32, tables_v, tables_w, Table,
    FIELDS, MASK, OFFSET, ROWS,
};
use korrigwen_harness::dice::Dice;
use korrigwen_harness::files::{two_paths, write_both};
use korrigwen_harness::frames::{
    Frame, BEGIN, EMPTY, JOIN_VALUES, MOST_AREA as WIDEST, NO_VALUE, RUN, WALK,
};
use korrigwen_harness::join::{join_values, natural_join};
use korrigwen_harness::lines::{begin_line, no_state_line, run_line, spoken, values_line};
use korrigwen_harness::reader::{read, Job, Refusal};
use korrigwen_harness::runner::{
    begin, fits, marked, run, total_rows, Kind, Reason, State, STEP_LIMIT,
};

const MOST: u32 = u32::MAX;

/// How many run calls a walk makes at most.
const CALLS: usize = 200;

/// A budget that none of the small jobs spends.
const PLENTY: u32 = 100_000;

fn main() {
    let paths = two_paths();

    let mut cases = Cases::default();
    figures(&mut cases);
    pause_points(&mut cases);
    going_on(&mut cases);
    order_of_tests(&mut cases);
    misfits(&mut cases);
    no_states(&mut cases);
    unreached(&mut cases);
    step_limit(&mut cases);
    mark_areas(&mut cases);
    foreign_marks(&mut cases);
    areas(&mut cases);
    records(&mut cases);
    greatest_values(&mut cases);
    empty_tables(&mut cases);
    eight_tables(&mut cases);
    parents(&mut cases);
    bad_files(&mut cases);
    great_files(&mut cases);
    random_jobs(&mut cases);
    random_states(&mut cases);
    cases.check_coverage();

    assert!(
        cases.input.len() + cases.output.len() < 3_000_000,
        "both files together are kept below 3 MB"
    );
    write_both(&paths, &cases.input, &cases.output);
    println!(
        "{} cases, {} walks to the end, input {} bytes, output {} bytes",
        cases.labels.len(),
        cases.ended,
        cases.input.len(),
        cases.output.len()
    );
}

// ---- collecting -----------------------------------------------------------

/// What a run call left behind.
#[derive(Clone, Debug, PartialEq, Eq)]
struct Stop {
    reason: Reason,
    state: State,
    marks: Vec<u8>,
    area: Vec<u32>,
}

#[derive(Default)]
struct Cases {
    labels: BTreeSet<String>,
    input: Vec<u8>,
    output: Vec<u8>,
    /// Walks that reached the end of their job.
    ended: usize,
    /// Pairs of operation and refusal number that were seen.
    refused: BTreeSet<(u32, u32)>,
    /// Reasons for stopping that were seen.
    reasons: BTreeSet<u32>,
}

impl Cases {
    /// Adds a frame to the input.
    fn frame(&mut self, frame: Frame) {
        let Frame { label, .. } = frame;
        assert!(
            self.labels.insert(label.to_string()),
            "label twice: {label}"
        );
        frame.put(&mut self.input);
    }

    /// Adds a begin case.
    fn begin(&mut self, label: &str, file: &[u8], marks: &[u8]) -> Result<State, Refusal> {
        self.frame(Frame {
            op: BEGIN,
            label,
            file,
            marks,
            ..Frame::default()
        });
        self.begin_line(BEGIN, label, file, marks).0
    }

    /// Begins, adds the line, and gives the answer and the marks afterwards.
    fn begin_line(
        &mut self,
        op: u32,
        label: &str,
        file: &[u8],
        marks: &[u8],
    ) -> (Result<State, Refusal>, Vec<u8>) {
        let mut after = marks.to_vec();
        let answer = begin(file, &mut after);
        match &answer {
            Ok(_) => {
                let rows = total_rows(&read(file).unwrap());
                assert!(after[..rows].iter().all(|&mark| mark == 0), "{label}");
                assert_eq!(after[rows..], marks[rows..], "{label}");
            }
            Err(refusal) => {
                assert_eq!(after, marks, "{label}");
                self.refused.insert((op, refusal.number));
            }
        }
        self.output
            .extend(begin_line(label, &answer, &after).as_bytes());
        (answer, after)
    }

    /// Adds a run case.
    fn run(
        &mut self,
        label: &str,
        file: &[u8],
        state: State,
        marks: &[u8],
        budget: u32,
        area: usize,
    ) -> Result<Stop, Refusal> {
        self.frame(Frame {
            op: RUN,
            label,
            file,
            marks,
            state: &state.flat(),
            budget,
            area,
            ..Frame::default()
        });
        self.run_line(label, file, state, marks, budget, area)
    }

    /// Runs, adds the line, and checks what holds for every run call.
    fn run_line(
        &mut self,
        label: &str,
        file: &[u8],
        state: State,
        marks: &[u8],
        budget: u32,
        area: usize,
    ) -> Result<Stop, Refusal> {
        let mut marks_after = marks.to_vec();
        let mut area_after = vec![EMPTY; area];
        let answer = run(file, state, &mut marks_after, budget, &mut area_after);
        match &answer {
            Ok((reason, next)) => {
                check_call(
                    label,
                    file,
                    &state,
                    next,
                    marks,
                    &marks_after,
                    budget,
                    &area_after,
                );
                self.reasons.insert(reason.number());
            }
            Err(refusal) => {
                assert_eq!(marks_after, marks, "{label}");
                assert!(area_after.iter().all(|&place| place == EMPTY), "{label}");
                self.refused.insert((RUN, refusal.number));
            }
        }
        self.output
            .extend(run_line(label, &answer, &marks_after, &area_after).as_bytes());
        answer.map(|(reason, state)| Stop {
            reason,
            state,
            marks: marks_after,
            area: area_after,
        })
    }

    /// Adds a run case that is refused with this number at this place.
    fn run_refused(
        &mut self,
        label: &str,
        file: &[u8],
        state: State,
        marks: &[u8],
        area: usize,
        (number, place): (u32, u32),
    ) {
        let answer = self.run(label, file, state, marks, 20, area);
        assert_eq!(answer, Err(Refusal { number, place }), "{label}");
    }

    /// Adds a run case whose state numbers are no state.
    fn no_state(&mut self, label: &str, file: &[u8], numbers: &[u32], marks: &[u8]) {
        assert_eq!(State::from_flat(numbers), None, "{label}");
        self.frame(Frame {
            op: RUN,
            label,
            file,
            marks,
            state: numbers,
            budget: 20,
            area: 9,
            ..Frame::default()
        });
        self.output.extend(no_state_line(label).as_bytes());
    }

    /// Adds a case for joining values.
    fn values(
        &mut self,
        label: &str,
        file: &[u8],
        record: &[u32],
        values: usize,
    ) -> Result<Vec<i32>, Refusal> {
        self.frame(Frame {
            op: JOIN_VALUES,
            label,
            file,
            record,
            values,
            ..Frame::default()
        });
        let mut area = vec![NO_VALUE; values];
        let answer = join_values(file, record, &mut area);
        match &answer {
            Ok(count) => {
                let job = read(file).unwrap();
                assert_eq!(*count, distinct_columns(&job), "{label}");
                assert!(area[*count..].iter().all(|&v| v == NO_VALUE), "{label}");
            }
            Err(refusal) => {
                assert!(area.iter().all(|&v| v == NO_VALUE), "{label}");
                self.refused.insert((JOIN_VALUES, refusal.number));
            }
        }
        self.output
            .extend(values_line(label, &answer, &area).as_bytes());
        answer.map(|count| area[..count].to_vec())
    }

    /// Adds a case for joining values that is refused with this number at this place.
    fn values_refused(
        &mut self,
        label: &str,
        file: &[u8],
        record: &[u32],
        values: usize,
        (number, place): (u32, u32),
    ) {
        let answer = self.values(label, file, record, values);
        assert_eq!(answer, Err(Refusal { number, place }), "{label}");
    }

    /// Adds a walk of an accepted job: begin, then run calls until the end,
    /// the step limit, a call without a step, or 200 calls. Gives the calls.
    fn walk(
        &mut self,
        label: &str,
        file: &[u8],
        marks: &[u8],
        budget: u32,
        area: usize,
    ) -> Vec<Stop> {
        self.frame(Frame {
            op: WALK,
            label,
            file,
            marks,
            budget,
            area,
            ..Frame::default()
        });
        let (answer, mut marks) = self.begin_line(WALK, label, file, marks);
        let mut state = answer.expect("walked jobs are accepted");
        let mut calls: Vec<Stop> = Vec::new();
        while calls.len() < CALLS {
            let stop = self
                .run_line(label, file, state, &marks, budget, area)
                .expect("a state that was handed back fits");
            let over = matches!(stop.reason, Reason::Ended | Reason::StepLimit)
                || stop.state.steps == state.steps;
            state = stop.state;
            marks = stop.marks.clone();
            calls.push(stop);
            if over {
                break;
            }
        }
        if calls
            .last()
            .is_some_and(|last| last.reason == Reason::Ended)
        {
            check_walk(label, file, &calls);
            self.ended += 1;
        }
        calls
    }

    /// Adds a walk that is refused at its beginning.
    fn walk_refused(&mut self, label: &str, file: &[u8], marks: &[u8], refusal: (u32, u32)) {
        self.frame(Frame {
            op: WALK,
            label,
            file,
            marks,
            budget: 20,
            area: 9,
            ..Frame::default()
        });
        let (number, place) = refusal;
        let (answer, _) = self.begin_line(WALK, label, file, marks);
        assert_eq!(answer, Err(Refusal { number, place }), "{label}");
    }

    /// Adds a walk that is paused only when 200 places do not hold all records,
    /// and that must reach the end. Gives the last call.
    fn whole(&mut self, label: &str, file: &[u8]) -> Stop {
        let job = read(file).unwrap();
        let needed = (natural_join(file, &job).len() + 1) * job.k;
        let marks = vec![9; total_rows(&job)];
        let mut calls = self.walk(label, file, &marks, PLENTY, needed.min(WIDEST));
        let last = calls.pop().unwrap();
        assert_eq!(last.reason, Reason::Ended, "{label}");
        last
    }

    /// Every refusal was seen through every operation that gives it, and every
    /// reason for stopping.
    fn check_coverage(&self) {
        for number in 1..=15 {
            for op in 1..=4 {
                let given = match op {
                    1 | 4 => number <= 12,
                    2 => number <= 13,
                    _ => number <= 11 || number >= 14,
                };
                let seen = self.refused.contains(&(op, number));
                assert_eq!(seen, given, "operation {op} refusal {number}");
            }
        }
        assert_eq!(self.reasons.len(), 4);
    }
}

fn distinct_columns(job: &Job) -> usize {
    let all = job.entries.iter().fold(0, |all, entry| all | entry.mask);
    all.count_ones() as usize
}

// ---- what every call and every walk must meet ------------------------------

/// The records that a call wrote to the front of its area.
fn written<'a>(job: &Job, before: &State, after: &State, area: &'a [u32]) -> &'a [u32] {
    &area[..(after.records - before.records) as usize * job.k]
}

/// Checks one accepted run call: marks change only among the job's rows and
/// only to 1, places after the records are untouched, the next state fits, and
/// no more steps are taken than the budget.
#[allow(clippy::too_many_arguments)]
fn check_call(
    label: &str,
    file: &[u8],
    before: &State,
    after: &State,
    marks_before: &[u8],
    marks_after: &[u8],
    budget: u32,
    area: &[u32],
) {
    let job = read(file).unwrap();
    let rows = total_rows(&job);
    assert!(fits(&job, before) && fits(&job, after), "{label}");
    assert!(after.steps - before.steps <= budget, "{label}");
    for (i, (&old, &new)) in marks_before.iter().zip(marks_after).enumerate() {
        assert!(new == old || new == 1 && i < rows, "{label}: mark {i}");
    }
    let filled = written(&job, before, after, area).len();
    assert!(area[..filled].iter().all(|&place| place < 4_096), "{label}");
    assert!(area[filled..].iter().all(|&p| p == EMPTY), "{label}");
    if before == after {
        assert_eq!(marks_before, marks_after, "{label}");
    }
}

/// Checks a walk that reached its end: its records are the nested-loop join in
/// order, both bounds hold, and one call for all of it ends with the same
/// state and marks.
fn check_walk(label: &str, file: &[u8], calls: &[Stop]) {
    let job = read(file).unwrap();
    let last = calls.last().unwrap();
    let k = job.k as u64;

    let mut handed_out: Vec<Vec<u32>> = Vec::new();
    let mut before = State::fresh();
    for call in calls {
        let places = written(&job, &before, &call.state, &call.area);
        handed_out.extend(places.chunks(job.k).map(<[u32]>::to_vec));
        before = call.state;
    }
    assert_eq!(handed_out, natural_join(file, &job), "{label}");

    let steps = u64::from(last.state.steps);
    let lookups = u64::from(last.state.lookups);
    let records = u64::from(last.state.records);
    let marked = marked(&job, &last.marks) as u64;
    assert_eq!(records, handed_out.len() as u64, "{label}");
    assert!(lookups <= (k - 1) * (records + marked), "{label}");
    assert!(steps <= 3 * lookups + records + 1, "{label}");

    let rows = total_rows(&job);
    let mut marks = vec![0; rows];
    let mut area = vec![EMPTY; (handed_out.len() + 1) * job.k];
    let whole = run(file, State::fresh(), &mut marks, MOST, &mut area);
    assert_eq!(whole, Ok((Reason::Ended, last.state)), "{label}");
    assert_eq!(marks, last.marks[..rows], "{label}");
}

// ---- making jobs, states and numbers ---------------------------------------

/// The plan 0 1 2 and so on.
fn in_order(k: usize) -> Vec<u8> {
    (0..k as u8).collect()
}

fn straight(tables: &[Table]) -> Vec<u8> {
    job(&in_order(tables.len()), tables)
}

/// Document 01's jobs that are run, with their names.
fn documents_jobs() -> Vec<(&'static str, Vec<u8>)> {
    vec![
        ("W", job_w()),
        ("V", job_v()),
        ("P7", job_p7()),
        ("P8", job_p8()),
        ("P9", job_p9()),
    ]
}

/// The row counts of a file's tables, in plan order.
fn row_counts(file: &[u8]) -> Vec<u32> {
    let job = read(file).unwrap();
    job.plan
        .iter()
        .map(|&table| job.entries[usize::from(table)].rows)
        .collect()
}

/// One live mark for each row of a file.
fn live(file: &[u8]) -> Vec<u8> {
    vec![0; total_rows(&read(file).unwrap())]
}

fn advance(at: usize, start: u32, chosen: &[u32]) -> State {
    let mut state = State {
        at: at as u32,
        start,
        steps: 9,
        lookups: 4,
        records: 2,
        ..State::fresh()
    };
    state.chosen[..chosen.len()].copy_from_slice(chosen);
    state
}

fn lookup(at: usize, chosen: &[u32]) -> State {
    State {
        kind: Kind::Lookup,
        ..advance(at, 0, chosen)
    }
}

fn ended() -> State {
    State {
        kind: Kind::Ended,
        ..advance(0, 0, &[])
    }
}

fn counted(state: State, steps: u32, lookups: u32, records: u32) -> State {
    State {
        steps,
        lookups,
        records,
        ..state
    }
}

/// A state's kind and position, for labels.
fn step_name(state: &State) -> String {
    match state.kind {
        Kind::Ended => "ended".to_string(),
        Kind::Advance => format!("advance {}", state.at),
        Kind::Lookup => format!("lookup {}", state.at),
    }
}

/// All choices of row numbers below these counts.
fn choices(counts: &[u32]) -> Vec<Vec<u32>> {
    let mut all = vec![vec![]];
    for &count in counts {
        all = all
            .iter()
            .flat_map(|choice: &Vec<u32>| {
                (0..count).map(move |row| [choice.as_slice(), &[row]].concat())
            })
            .collect();
    }
    all
}

/// All fitting states of a job but the ended one.
fn fitting_states(file: &[u8]) -> Vec<State> {
    let rows = row_counts(file);
    let mut states = Vec::new();
    for at in 0..rows.len() {
        for chosen in choices(&rows[..at]) {
            states.extend((0..=rows[at]).map(|start| advance(at, start, &chosen)));
            if at > 0 {
                states.push(lookup(at, &chosen));
            }
        }
    }
    states
}

/// Eight tables in a chain: table i has columns i and i + 1, and rows that
/// step from one small value to another.
fn chain() -> Vec<Table> {
    let rows: [&[i32]; 3] = [&[1, 1], &[2, 1], &[2, 2]];
    (0..8)
        .map(|i| Table::new(3 << i, &rows[..2 + i % 2]))
        .collect()
}

/// A table with columns 0 to 6 and seven that each share one of them.
fn star() -> Vec<Table> {
    let centre: [&[i32]; 3] = [
        &[1, 1, 1, 1, 1, 1, 1],
        &[1, 2, 1, 2, 1, 2, 1],
        &[1, 1, 1, 1, 1, 1, 3],
    ];
    let mut tables = vec![Table::new(0x7f, &centre)];
    for i in 0..7 {
        let rows: [&[i32]; 2] = [&[1, 10], &[2 - i % 2, 20]];
        tables.push(Table::new(0x101 << i, &rows));
    }
    tables
}

/// Eight tables of one or two rows without a shared column.
fn apart() -> Vec<Table> {
    (0..8)
        .map(|i| Table::filled(1 << (4 * i), 1 + i % 2))
        .collect()
}

/// Two tables of so many rows without a shared column.
fn two_apart(first: usize, second: usize) -> Vec<u8> {
    straight(&[Table::filled(1, first), Table::filled(2, second)])
}

// ---- the cases: document 01's figures and every pause -----------------------

/// The jobs of the document run to their ends, with the document's numbers.
fn figures(cases: &mut Cases) {
    let mut figure = |name: &str, file: &[u8], counts: (u32, u32, u32), marks: &[u8]| {
        let last = cases.whole(&format!("{name} to the end"), file);
        let State {
            steps,
            lookups,
            records,
            ..
        } = last.state;
        assert_eq!((lookups, steps, records), counts, "{name}");
        assert_eq!(last.marks, marks, "{name}");
        last.area
    };

    let area = figure("W", &job_w(), (5, 12, 1), &[0, 0, 1, 0, 1, 0]);
    assert_eq!(area[..4], [1, 1, 0, EMPTY]);
    let area = figure("V", &job_v(), (6, 11, 0), &[0, 1, 1, 1, 0, 0, 0, 0]);
    assert_eq!(area[0], EMPTY);
    let area = figure("P7", &job_p7(), (0, 3, 2), &[0, 0]);
    assert_eq!(area[..3], [0, 1, EMPTY]);
    figure("P8", &job_p8(), (0, 1, 0), &[]);
    figure("P9", &job_p9(), (2, 5, 0), &[1, 1]);
    let equal = straight(&[Table::new(1, &[&[4], &[4]]), Table::new(2, &[])]);
    figure("P9 with equal rows", &equal, (2, 5, 0), &[1, 1]);

    let room = cases.run(
        "W with room for one",
        &job_w(),
        State::fresh(),
        &[0; 6],
        50,
        3,
    );
    let room = room.unwrap();
    assert_eq!(room.reason, Reason::NoRoom);
    assert_eq!(room.state, counted(advance(2, 1, &[1, 1]), 7, 4, 1));
    assert_eq!(room.area, [1, 1, 0]);

    for (name, file) in documents_jobs() {
        let marks = live(&file);
        let label = format!("{name} fresh budget 0");
        let stop = cases
            .run(&label, &file, State::fresh(), &marks, 0, 9)
            .unwrap();
        assert_eq!(stop.reason, Reason::BudgetSpent, "{label}");
        assert_eq!((stop.state, stop.marks), (State::fresh(), marks), "{label}");
    }
}

/// The document's jobs with every budget up to one past their last step and
/// every area up to one record and a place more than they need.
fn pause_points(cases: &mut Cases) {
    for (name, file) in documents_jobs() {
        let k = read(&file).unwrap().k;
        let last = cases.whole(&format!("{name} for its figures"), &file).state;
        let needed = last.records as usize * k;
        for budget in 0..=last.steps + 1 {
            for area in 0..=needed + k + 1 {
                let label = format!("{name} budget {budget} area {area}");
                let calls = cases.walk(&label, &file, &live(&file), budget, area);
                let done = calls.last().unwrap().reason == Reason::Ended;
                assert_eq!(done, budget > 0 && area >= k, "{label}");
            }
        }
    }
}

/// From every reached state of the document's jobs, the rest in one call.
fn going_on(cases: &mut Cases) {
    for (name, file) in documents_jobs() {
        let mut marks = live(&file);
        let mut state = State::fresh();
        loop {
            let label = format!("{name} on from step {}", state.steps);
            let rest = cases.run(&label, &file, state, &marks, PLENTY, 40).unwrap();
            assert_eq!(rest.reason, Reason::Ended, "{label}");
            if state.kind == Kind::Ended {
                break;
            }
            let (_, next) = run(&file, state, &mut marks, 1, &mut [EMPTY; 8]).unwrap();
            state = next;
        }
    }
}

/// Several reasons for stopping at once: the first is given.
fn order_of_tests(cases: &mut Cases) {
    let limit = |state| counted(state, STEP_LIMIT, 3, 2);
    for (name, file) in documents_jobs() {
        let marks = live(&file);
        let k = read(&file).unwrap().k;
        let mut stays = |what: &str, state: State, budget: u32, area: usize, reason: u32| {
            let label = format!("{name} {what} order budget {budget} area {area}");
            let stop = cases
                .run(&label, &file, state, &marks, budget, area)
                .unwrap();
            assert_eq!(stop.reason.number(), reason, "{label}");
            assert_eq!(stop.state, state, "{label}");
        };
        for budget in [0, 1, MOST] {
            for area in BTreeSet::from([0, k - 1, k, k + 1]) {
                stays("ended", ended(), budget, area, 0);
                stays("ended at limit", limit(ended()), budget, area, 0);
                stays("at limit", limit(State::fresh()), budget, area, 1);
                if budget == 0 {
                    stays("fresh", State::fresh(), budget, area, 2);
                } else if area < k {
                    stays("fresh", State::fresh(), budget, area, 3);
                }
            }
        }
    }
}

// ---- the cases: states ------------------------------------------------------

/// States in which one part of "fits" is broken, with what is broken.
fn broken_states(rows: &[u32]) -> Vec<(String, State)> {
    let k = rows.len();
    let mut broken = Vec::new();

    // A fitting state of every kind at every position: the bases.
    let last_rows = |p: usize| rows[..p].iter().map(|r| r - 1).collect::<Vec<u32>>();
    let mut bases = vec![ended()];
    bases.extend((0..k).map(|p| advance(p, 0, &last_rows(p))));
    bases.extend((1..k).map(|p| lookup(p, &last_rows(p))));

    for base in &bases {
        let p = base.at as usize;
        let mut add = |what: String, state: State| {
            broken.push((format!("{} with {what}", step_name(base)), state));
        };

        // Unused numbers that are not 0, chosen rows out of range
        for (i, &count) in rows.iter().enumerate().take(p) {
            for row in [count, 0x4000_0000, MOST] {
                let mut state = *base;
                state.chosen[i] = row;
                add(format!("chosen {i} as {row}"), state);
            }
        }
        for i in p..8 {
            let mut state = *base;
            state.chosen[i] = 1;
            add(format!("unused chosen {i}"), state);
        }
        let starts = match base.kind {
            Kind::Advance => vec![rows[p] + 1, 4_097, 0x4000_0000, MOST],
            Kind::Ended | Kind::Lookup => vec![1, MOST],
        };
        for start in starts {
            add(format!("start {start}"), State { start, ..*base });
        }
        if base.kind == Kind::Ended {
            for at in [1, 8, MOST] {
                add(format!("position {at}"), State { at, ..*base });
            }
        }

        // Counts
        for (steps, lookups, records) in [
            (STEP_LIMIT + 1, 4, 2),
            (MOST, 4, 2),
            (MOST, MOST, MOST),
            (9, 10, 2),
            (9, 4, 10),
            (0, 1, 0),
            (0, 0, 1),
            (STEP_LIMIT, STEP_LIMIT + 1, 0),
            (STEP_LIMIT, 0, STEP_LIMIT + 1),
            (STEP_LIMIT, MOST, 0),
            (STEP_LIMIT, 0, MOST),
        ] {
            let state = counted(*base, steps, lookups, records);
            add(format!("counts {steps} {lookups} {records}"), state);
        }
    }

    // Positions that do not exist
    let k = k as u32;
    for at in BTreeSet::from([k, k + 1, 7.max(k), 8, 9, 256, MOST]) {
        for state in [advance(0, 0, &[]), lookup(1, &[0])] {
            let state = State { at, ..state };
            broken.push((format!("{} too high", step_name(&state)), state));
        }
    }
    broken.push(("lookup 0".to_string(), lookup(0, &[])));
    broken
}

/// Each part of "fits" broken alone: 13, and nothing is written.
fn misfits(cases: &mut Cases) {
    for (name, file) in [
        ("W", job_w()),
        ("W turned", job(&[2, 1, 0], &tables_w())),
        ("V", job_v()),
        ("P7", job_p7()),
    ] {
        let rows = row_counts(&file);
        let mut marks: Vec<u8> = vec![0; rows.iter().sum::<u32>() as usize];
        marks.extend([5, 0]);
        for (what, state) in broken_states(&rows) {
            let label = format!("{name} misfit {what}");
            cases.run_refused(&label, &file, state, &marks, 5, (13, 0));
        }
    }

    // All eight positions used
    let file = straight(&chain());
    let rows = row_counts(&file);
    let marks = live(&file);
    for at in [7, 8] {
        let chosen: Vec<u32> = rows[..at].iter().map(|r| r - 1).collect();
        for state in [advance(at, 0, &chosen), lookup(at, &chosen)] {
            let label = format!("chain {}", step_name(&state));
            if at == 8 {
                cases.run_refused(&label, &file, state, &marks, 9, (13, 0));
                continue;
            }
            let answer = cases.run(&label, &file, state, &marks, 30, 40);
            assert!(answer.is_ok(), "{label}");
            for (i, &count) in rows.iter().enumerate() {
                let mut wrong = state;
                wrong.chosen[i] = if i < at { count } else { 1 };
                let label = format!("{label} misfit chosen {i}");
                cases.run_refused(&label, &file, wrong, &marks, 9, (13, 0));
            }
        }
    }

    // An empty table has no row that could be chosen; the start may be 0.
    let empty = job_p9();
    let marks = live(&empty);
    let ok = cases.run("P9 advance 1", &empty, advance(1, 0, &[1]), &marks, 1, 2);
    assert!(ok.is_ok());
    for (what, state) in [
        ("start 1 in the empty table", advance(1, 1, &[1])),
        ("lookup 2", lookup(2, &[1, 0])),
    ] {
        let label = format!("P9 misfit {what}");
        cases.run_refused(&label, &empty, state, &marks, 2, (13, 0));
    }
    let root = job(&[1, 0], &[Table::filled(1, 2), Table::filled(2, 0)]);
    for state in [advance(1, 0, &[0]), lookup(1, &[0])] {
        let label = format!("empty root misfit {}", step_name(&state));
        cases.run_refused(&label, &root, state, &[0; 2], 2, (13, 0));
    }
}

/// Flat forms of the wrong length or kind.
fn no_states(cases: &mut Cases) {
    let w = job_w();
    let flat = State::fresh().flat();
    for length in [0, 1, 11, 13, 15, 16, 20] {
        let mut numbers = flat.to_vec();
        numbers.resize(length, 0);
        let label = format!("flat form of {length}");
        cases.no_state(&label, &w, &numbers, &[0; 6]);
    }
    for kind in [3, 4, 255, 256, 257, 258, 65_536, 0x8000_0001, MOST] {
        for (name, state) in [("fresh", State::fresh()), ("lookup", lookup(1, &[0]))] {
            let mut numbers = state.flat();
            numbers[0] = kind;
            let label = format!("flat form {name} of kind {kind}");
            cases.no_state(&label, &w, &numbers, &[0; 6]);
        }
    }
    cases.no_state(
        "flat form of 14 times the greatest",
        &w,
        &[MOST; 14],
        &[0; 6],
    );
    let mut long = [0; 15];
    long[..14].copy_from_slice(&flat);
    long[0] = 3;
    cases.no_state("flat form of 15 and kind 3", &w, &long, &[0; 6]);
}

/// Every fitting state of W, V, P7 and P9, most of them never reached, under
/// several marks.
fn unreached(cases: &mut Cases) {
    let turned = job(&[1, 0, 2], &tables_w());
    for (name, file, patterns) in [
        (
            "W",
            job_w(),
            &[[0, 0, 0, 0, 0, 0, 0, 0], [1; 8], [0, 7, 1, 0, 255, 0, 0, 0]][..],
        ),
        ("W turned", turned, &[[0; 8], [0, 0, 2, 0, 0, 128, 0, 0]]),
        ("V", job_v(), &[[0; 8], [0, 0, 0, 255, 0, 0, 1, 0]]),
        (
            "P7",
            job_p7(),
            &[[0; 8], [1, 0, 0, 0, 0, 0, 0, 0], [0, 3, 0, 0, 0, 0, 0, 0]],
        ),
        ("P9", job_p9(), &[[0; 8], [6; 8]]),
    ] {
        let rows = live(&file).len();
        for (i, state) in fitting_states(&file).into_iter().enumerate() {
            for (m, pattern) in patterns.iter().enumerate() {
                for budget in [1, 60] {
                    let step = step_name(&state);
                    let label = format!("{name} unreached {i} {step} marks {m} budget {budget}");
                    let marks = &pattern[..rows];
                    let answer = cases.run(&label, &file, state, marks, budget, 12);
                    let stop = answer.unwrap();
                    assert!(stop.state.steps > state.steps, "{label}");
                }
            }
        }
    }

    // The least and the greatest counts beside each other
    let w = job_w();
    for (what, counts) in [
        ("no counts", (0, 0, 0)),
        ("all lookups", (100, 100, 0)),
        ("all records", (100, 0, 100)),
        ("all of both", (100, 100, 100)),
        (
            "near the limit",
            (STEP_LIMIT - 1, STEP_LIMIT - 1, STEP_LIMIT - 1),
        ),
        ("at the limit", (STEP_LIMIT, STEP_LIMIT, STEP_LIMIT)),
    ] {
        let (steps, lookups, records) = counts;
        for state in [ended(), advance(2, 0, &[1, 1]), lookup(2, &[1, 1])] {
            let state = counted(state, steps, lookups, records);
            let label = format!("W {} {what}", step_name(&state));
            let stop = cases.run(&label, &w, state, &[0; 6], 20, 9).unwrap();
            assert!(stop.state.steps <= STEP_LIMIT, "{label}");
        }
    }
}

/// The step limit: reached on the way, and exactly at the end.
fn step_limit(cases: &mut Cases) {
    for (name, file) in documents_jobs() {
        let whole = cases
            .whole(&format!("{name} before its limit"), &file)
            .state;
        for before in 1..=whole.steps + 1 {
            let state = counted(State::fresh(), STEP_LIMIT - before, 0, 0);
            let label = format!("{name} fresh {before} before the limit");
            let stop = cases
                .run(&label, &file, state, &live(&file), MOST, 40)
                .unwrap();
            let (reason, steps) = if before < whole.steps {
                (Reason::StepLimit, STEP_LIMIT)
            } else {
                (Reason::Ended, STEP_LIMIT - before + whole.steps)
            };
            assert_eq!((stop.reason, stop.state.steps), (reason, steps), "{label}");
        }
    }

    // Two tables that share nothing: each root row takes an advance, a lookup
    // with the first record, an advance for each other record, and one that
    // finds none; the end takes one more.
    for (first, second, end, lookups, records) in [
        (4_095, 4_095, Reason::Ended, 4_095, 4_095 * 4_095),
        (4_096, 4_094, Reason::StepLimit, 4_096, 4_096 * 4_094),
        (4_096, 4_096, Reason::StepLimit, 4_095, 16_769_027),
    ] {
        let file = two_apart(first, second);
        let mut marks = live(&file);
        let state = reached(&file, &mut marks, STEP_LIMIT - 6);
        let label = format!("{first} by {second} 6 before the limit");
        let stop = cases.run(&label, &file, state, &marks, MOST, 20).unwrap();
        assert_eq!(stop.reason, end, "{label}");
        assert_eq!(stop.state.steps, STEP_LIMIT, "{label}");
        assert_eq!(stop.state.lookups, lookups, "{label}");
        assert_eq!(stop.state.records, records, "{label}");
        assert_eq!(stop.marks, marks, "{label}");
    }
}

/// The state of a job after so many steps from the beginning.
fn reached(file: &[u8], marks: &mut [u8], steps: u32) -> State {
    let mut area = vec![EMPTY; 1 << 20];
    let mut state = begin(file, marks).unwrap();
    while state.steps < steps {
        let (_, next) = run(file, state, marks, steps - state.steps, &mut area).unwrap();
        state = next;
    }
    state
}

// ---- the cases: lent areas --------------------------------------------------

/// Mark areas that are exactly long enough, too short and longer, with bytes
/// that are not 0.
fn mark_areas(cases: &mut Cases) {
    let mut jobs = documents_jobs();
    jobs.push(("chain", straight(&chain())));
    jobs.push(("W turned", job(&[1, 2, 0], &tables_w())));
    for (name, file) in jobs {
        let rows = live(&file).len();
        let dirty: Vec<u8> = (0..rows + 40).map(|i| (i * 37 % 255) as u8 + 1).collect();
        for longer in [0, 1, 2, 40] {
            let marks = &dirty[..rows + longer];
            let label = format!("{name} marks longer by {longer}");
            let fresh = cases.begin(&format!("begin {label}"), &file, marks);
            assert_eq!(fresh, Ok(State::fresh()), "{label}");
            let calls = cases.walk(&format!("walk {label}"), &file, marks, 5, 24);
            let last = calls.last().unwrap();
            assert_eq!(last.reason, Reason::Ended, "{label}");
            assert_eq!(last.marks[rows..], marks[rows..], "{label}");
            cases
                .run(
                    &format!("run {label}"),
                    &file,
                    State::fresh(),
                    marks,
                    30,
                    24,
                )
                .unwrap();
        }
        for length in BTreeSet::from([0, rows / 2, rows.saturating_sub(1)]) {
            if length == rows {
                continue;
            }
            let marks = &dirty[..length];
            let label = format!("{name} marks only {length}");
            let answer = cases.begin(&format!("begin {label}"), &file, marks);
            assert_eq!(answer.unwrap_err().number, 12, "{label}");
            cases.walk_refused(&format!("walk {label}"), &file, marks, (12, 0));
            for (what, state) in [
                ("fresh", State::fresh()),
                ("ended", ended()),
                ("misfit", advance(8, 0, &[])),
                ("misfit counts", counted(State::fresh(), 0, 1, 0)),
            ] {
                let label = format!("run {label} {what}");
                cases.run_refused(&label, &file, state, marks, 24, (12, 0));
            }
        }
    }
}

/// Marks that no run made: any byte but 0 keeps a row from being found.
fn foreign_marks(cases: &mut Cases) {
    for (name, file) in documents_jobs() {
        let rows = live(&file).len();
        for bits in 0..1u32 << rows {
            let byte = [1, 2, 255][bits as usize % 3];
            let marks: Vec<u8> = (0..rows)
                .map(|i| if bits >> i & 1 == 1 { byte } else { 0 })
                .collect();
            let label = format!("{name} fresh marks {bits} of {byte}");
            let stop = cases
                .run(&label, &file, State::fresh(), &marks, 60, 9)
                .unwrap();
            assert_eq!(stop.reason, Reason::Ended, "{label}");
        }
    }
}

/// Areas around whole numbers of records, with budgets that end before, at and
/// after each record.
fn areas(cases: &mut Cases) {
    let pairs = two_apart(2, 3);
    let three = straight(&[
        Table::new(1, &[&[1], &[2]]),
        Table::new(3, &[&[1, 5], &[1, 6], &[2, 5]]),
        Table::new(2, &[&[5], &[5], &[6]]),
    ]);
    for (name, file) in [("two by three", pairs), ("three tables", three)] {
        let k = read(&file).unwrap().k;
        for area in 0..=4 * k + 1 {
            for budget in [1, 2, 3, 7, PLENTY] {
                if budget < 3 && area % k > 0 {
                    continue;
                }
                let label = format!("{name} area {area} budget {budget}");
                let calls = cases.walk(&label, &file, &live(&file), budget, area);
                let done = calls.last().unwrap().reason == Reason::Ended;
                assert_eq!(done, area >= k, "{label}");
            }
        }
    }

    // More calls than a walk makes: 15 × 17 + 1 steps.
    let long = two_apart(15, 15);
    let calls = cases.walk("fifteen by fifteen one by one", &long, &live(&long), 1, 2);
    assert_eq!(calls.len(), CALLS);
    assert_eq!(calls[199].reason, Reason::BudgetSpent);
    cases.whole("fifteen by fifteen", &long);
}

// ---- the cases: joining values ----------------------------------------------

/// Records of every kind for the document's jobs and one with eight tables.
fn records(cases: &mut Cases) {
    let turned = job(&[2, 1, 0], &tables_w());
    for (name, file) in [
        ("W", job_w()),
        ("W turned", turned),
        ("V", job_v()),
        ("P7", job_p7()),
    ] {
        let joined = natural_join(&file, &read(&file).unwrap());
        for choice in choices(&row_counts(&file)) {
            let label = format!("{name} values of{}", spoken(&choice));
            let answer = cases.values(&label, &file, &choice, 8);
            let expected = joined.contains(&choice).then_some(()).ok_or(14);
            let found = answer.map(|_| ()).map_err(|refusal| refusal.number);
            assert_eq!(found, expected, "{label}");
        }
    }
    let values = cases.values("W values whole", &job_w(), &[1, 1, 0], 3);
    assert_eq!(values, Ok(vec![2, 20, 6]));

    let eight = straight(&chain());
    for (name, file, good) in [
        ("W", job_w(), vec![1, 1, 0]),
        ("P7", job_p7(), vec![1]),
        ("chain", eight, vec![0; 8]),
    ] {
        faulty_records(cases, name, &file, &good);
        let columns = distinct_columns(&read(&file).unwrap());
        for values in BTreeSet::from([0, 1, columns - 1, columns, columns + 1, 64]) {
            let label = format!("{name} value area {values}");
            let answer = cases.values(&label, &file, &good, values);
            assert_eq!(answer.is_ok(), values >= columns, "{label}");
            if values < columns {
                assert_eq!(answer.unwrap_err().number, 15, "{label}");
            }
        }
    }

    // No record of a job with an empty table fits.
    cases.values_refused("P8 values of 0", &job_p8(), &[0], 8, (14, 0));
    cases.values_refused("P8 values of nothing", &job_p8(), &[], 8, (14, 0));
    cases.values_refused("P9 values of 0 0", &job_p9(), &[0, 0], 8, (14, 0));
}

/// A good record made too short, too long, or with a row out of range at each
/// position: 14, also with a value area that is too short.
fn faulty_records(cases: &mut Cases, name: &str, file: &[u8], good: &[u32]) {
    let k = good.len();
    let mut faulty: Vec<(String, Vec<u32>)> = Vec::new();
    for length in BTreeSet::from([0, k - 1, k + 1, k + 2, 9, 20]) {
        let mut record = good.to_vec();
        record.resize(length, 0);
        faulty.push((format!("length {length}"), record));
    }
    for (p, &rows) in row_counts(file).iter().enumerate() {
        for row in [rows, rows + 1, 0x4000_0000, 0x8000_0000, MOST] {
            let mut record = good.to_vec();
            record[p] = row;
            faulty.push((format!("row {row} at {p}"), record));
        }
    }
    for (what, record) in faulty {
        for values in [0, 64] {
            let label = format!("{name} record {what} value area {values}");
            cases.values_refused(&label, file, &record, values, (14, 0));
        }
    }
}

/// The least and the greatest values, as keys and beside them; and 32 columns.
fn greatest_values(cases: &mut Cases) {
    let odd = [i32::MIN, i32::MAX, -1, 0, 1, i32::MIN + 1, -7, 0x8000];
    let rows: Vec<Vec<i32>> = odd.iter().map(|&v| vec![v, -v.wrapping_add(1)]).collect();
    let keys: Vec<Vec<i32>> = odd.iter().rev().map(|&v| vec![v]).collect();
    let tables = [
        Table { mask: 6, rows },
        Table {
            mask: 2,
            rows: keys,
        },
    ];
    for plan in [[0, 1], [1, 0]] {
        let file = job(&plan, &tables);
        let label = format!("odd values plan {} {}", plan[0], plan[1]);
        let last = cases.whole(&label, &file);
        assert_eq!(last.state.records, 8, "{label}");
        for record in natural_join(&file, &read(&file).unwrap()) {
            let label = format!("{label} values of{}", spoken(&record));
            assert!(cases.values(&label, &file, &record, 3).is_ok());
        }
        for record in [[0, 0], [0, 1], [7, 7]] {
            let label = format!("{label} misfit{}", spoken(&record));
            cases.values_refused(&label, &file, &record, 3, (14, 0));
        }
    }

    // Two values that differ in one bit only do not agree.
    for bit in [0, 7, 8, 15, 16, 24, 30, 31] {
        let there = vec![vec![1 << bit], vec![0]];
        let tables = [
            Table::new(1, &[&[0]]),
            Table {
                mask: 1,
                rows: there,
            },
        ];
        let file = straight(&tables);
        let label = format!("differing in bit {bit}");
        assert_eq!(cases.whole(&label, &file).state.records, 1, "{label}");
        let label = format!("{label} values");
        cases.values_refused(&label, &file, &[0, 0], 3, (14, 0));
    }

    let low = Table::filled(0x0000_ffff, 2);
    let high = Table::filled(0xffff_0000, 2);
    let every_other = Table::filled(0x5555_5555, 1);
    for (name, tables) in [
        ("32 columns", vec![low, high]),
        (
            "every other column",
            vec![every_other, Table::filled(0x8000_0000, 1)],
        ),
    ] {
        let file = straight(&tables);
        cases.whole(name, &file);
        let columns = distinct_columns(&read(&file).unwrap());
        for values in [columns - 1, columns, columns + 1, 64] {
            for last in 0..tables[1].rows.len() as u32 {
                let label = format!("{name} value area {values} of 0 {last}");
                let answer = cases.values(&label, &file, &[0, last], values);
                assert_eq!(answer.is_ok(), values >= columns, "{label}");
            }
        }
    }
}

// ---- the cases: shapes of jobs ----------------------------------------------

/// Jobs of one to eight tables with an empty table at each plan position.
fn empty_tables(cases: &mut Cases) {
    for (name, tables) in [
        ("W", tables_w()),
        ("V", tables_v()),
        ("chain", chain()),
        ("star", star()),
        ("apart", apart()),
    ] {
        for p in 0..tables.len() {
            let mut tables = tables.clone();
            tables[p].rows.clear();
            let file = straight(&tables);
            let label = format!("{name} empty at {p}");
            assert_eq!(cases.whole(&label, &file).state.records, 0, "{label}");
            let label = format!("{label} in pauses");
            cases.walk(&label, &file, &live(&file), 4, 8);
        }
        let mut tables = tables;
        tables.iter_mut().for_each(|table| table.rows.clear());
        let file = straight(&tables);
        let state = cases.whole(&format!("{name} all empty"), &file).state;
        assert_eq!((state.steps, state.lookups), (1, 0), "{name}");
    }
}

/// Eight tables: a chain, a star, nothing shared, all the same columns.
fn eight_tables(cases: &mut Cases) {
    let rows: [&[i32]; 3] = [&[1, 2], &[0, 3], &[1, 2]];
    let same: Vec<Table> = (0..8).map(|i| Table::new(9, &rows[..2 + i % 2])).collect();
    let backwards = [7, 6, 5, 4, 3, 2, 1, 0];
    for (name, plan, tables) in [
        ("chain", in_order(8), chain()),
        ("chain backwards", backwards.to_vec(), chain()),
        (
            "chain from the middle",
            vec![3, 4, 2, 5, 1, 6, 0, 7],
            chain(),
        ),
        ("star", in_order(8), star()),
        (
            "star others backwards",
            vec![0, 7, 6, 5, 4, 3, 2, 1],
            star(),
        ),
        ("star centre second", vec![3, 0, 1, 2, 4, 5, 6, 7], star()),
        ("apart", in_order(8), apart()),
        ("apart mixed", vec![4, 0, 6, 2, 7, 1, 5, 3], apart()),
        ("same columns", in_order(8), same),
    ] {
        let file = job(&plan, &tables);
        let marks = live(&file);
        let last = cases.whole(&format!("eight tables {name}"), &file);
        assert!(last.state.records > 0, "{name}");
        for (budget, area) in [(40, 7), (40, 8), (40, 9), (41, 16), (13, 64), (100, 200)] {
            let label = format!("eight tables {name} budget {budget} area {area}");
            cases.walk(&label, &file, &marks, budget, area);
        }
        let joined = natural_join(&file, &read(&file).unwrap());
        for record in [&joined[0], &joined[joined.len() - 1]] {
            let label = format!("eight tables {name} values of{}", spoken(record));
            if !cases.labels.contains(&label) {
                assert!(cases.values(&label, &file, record, 32).is_ok(), "{label}");
            }
        }
    }
}

/// Jobs whose parent is not the position before: the jump goes to the parent,
/// past tables with rows left, and the parent's row alone is compared.
fn parents(cases: &mut Cases) {
    // V with more rows in each table
    for n in 1..=4 {
        let rows = |f: &dyn Fn(i32) -> Vec<i32>| (1..=n).map(f).collect::<Vec<_>>();
        let tables = [
            Table {
                mask: 0b000011,
                rows: rows(&|i| vec![i, 1]),
            },
            Table {
                mask: 0b001110,
                rows: rows(&|i| vec![1, 1, i]),
            },
            Table {
                mask: 0b010100,
                rows: rows(&|i| vec![1, i]),
            },
            Table {
                mask: 0b100100,
                rows: rows(&|i| vec![0, i]),
            },
        ];
        let file = straight(&tables);
        let label = format!("V with {n} rows each");
        cases.whole(&label, &file);
        cases.walk(&format!("{label} one by one"), &file, &live(&file), 1, 4);
    }

    for (name, plan, tables) in [
        (
            "first parent of two",
            vec![0, 1, 2],
            vec![
                Table::new(3, &[&[1, 1], &[1, 2], &[2, 3]]),
                Table::new(1, &[&[1], &[1], &[2]]),
                Table::new(1, &[&[2], &[2]]),
            ],
        ),
        (
            "some keys are not enough",
            vec![0, 1, 2],
            vec![
                Table::new(3, &[&[1, 1], &[1, 2]]),
                Table::new(7, &[&[1, 1, 1], &[1, 1, 2], &[1, 2, 1]]),
                Table::new(6, &[&[1, 2], &[2, 1], &[2, 2]]),
            ],
        ),
        (
            "no keys after a chain",
            vec![0, 1, 2],
            vec![
                Table::new(3, &[&[1, 1], &[1, 2]]),
                Table::new(6, &[&[1, 1], &[2, 1], &[2, 2]]),
                Table::new(8, &[&[5], &[6]]),
            ],
        ),
        (
            "plan and contents differ",
            vec![2, 0, 3, 1],
            vec![
                Table::new(6, &[&[1, 1], &[1, 2], &[2, 2]]),
                Table::new(24, &[&[4, 4]]),
                Table::new(3, &[&[1, 1], &[1, 2], &[1, 3]]),
                Table::new(12, &[&[1, 3], &[2, 4], &[2, 4]]),
            ],
        ),
        (
            "repeated rows",
            vec![1, 0],
            vec![
                Table::new(3, &[&[1, 1], &[1, 1], &[2, 1]]),
                Table::new(1, &[&[1], &[2], &[1], &[3], &[3]]),
            ],
        ),
        (
            "a root row lost late",
            vec![0, 1, 2, 3],
            vec![
                Table::new(3, &[&[1, 1], &[2, 1]]),
                Table::new(4, &[&[1], &[2]]),
                Table::new(8, &[&[1], &[2]]),
                Table::new(1, &[&[2]]),
            ],
        ),
    ] {
        let file = job(&plan, &tables);
        cases.whole(name, &file);
        for budget in [1, 2, 5] {
            let label = format!("{name} budget {budget}");
            cases.walk(&label, &file, &live(&file), budget, 2 * tables.len());
        }
    }
}

// ---- the cases: refused files -----------------------------------------------

fn with_u32(mut file: Vec<u8>, at: usize, n: u32) -> Vec<u8> {
    set_u32(&mut file, at, n);
    file
}

/// W with entry `e`'s number at `which` replaced.
fn w_with(e: usize, which: usize, n: u32) -> Vec<u8> {
    with_u32(job_w(), entry_at(e) + which, n)
}

/// A refused file for each of 1 to 11, with its number and place.
fn refused_files() -> Vec<(&'static str, Vec<u8>, (u32, u32))> {
    let w = job_w();
    vec![
        ("no bytes", vec![], (1, 0)),
        ("11 bytes", vec![0; 11], (1, 0)),
        ("12 zero bytes", vec![0; 12], (2, 0)),
        ("k 9", with_u32(w.clone(), 0, 9), (2, 0)),
        ("k 1 alone", with_u32(vec![0; 12], 0, 1), (3, 0)),
        ("W cut to 59", w[..59].to_vec(), (3, 0)),
        ("plan 0 1 1", job(&[0, 1, 1], &tables_w()), (4, 2)),
        (
            "plan with a tail",
            job(&[0, 1, 2, 0, 0, 0, 0, 1], &tables_w()),
            (4, 7),
        ),
        ("mask 0", w_with(1, MASK, 0), (5, 1)),
        ("fields 4294967295", w_with(1, FIELDS, MOST), (6, 1)),
        ("rows 4097", w_with(2, ROWS, 4_097), (7, 2)),
        ("rows 4294967295", w_with(0, ROWS, MOST), (7, 0)),
        ("offset 0", w_with(2, OFFSET, 0), (8, 2)),
        ("W cut to 103", w[..103].to_vec(), (9, 2)),
        ("W and a byte", [w.as_slice(), &[0]].concat(), (10, 0)),
        ("plan 0 2 1", job(&[0, 2, 1], &tables_w()), (11, 2)),
        (
            "triangle",
            straight(&[3, 6, 5].map(|mask| Table::filled(mask, 1))),
            (11, 2),
        ),
    ]
}

/// Each refused file through every operation, alone and with faults in
/// whatever else is handed over: the file's number is given.
fn bad_files(cases: &mut Cases) {
    for (name, file, (number, place)) in refused_files() {
        let refusal = (number, place);
        for (area, marks) in [("marks", &[4; 30][..]), ("no marks", &[])] {
            let label = format!("bad file {name} {area}");
            let answer = cases.begin(&format!("begin {label}"), &file, marks);
            assert_eq!(answer, Err(Refusal { number, place }), "{label}");
            cases.walk_refused(&format!("walk {label}"), &file, marks, refusal);
            for (what, state) in [
                ("fresh", State::fresh()),
                ("ended", ended()),
                ("lookup 0", lookup(0, &[])),
                ("position 8", advance(8, 0, &[])),
                ("counts", counted(State::fresh(), MOST, MOST, MOST)),
            ] {
                let label = format!("run {label} {what}");
                cases.run_refused(&label, &file, state, marks, 6, refusal);
            }
        }
        for (what, record) in [
            ("record", &[1, 1, 0][..]),
            ("bad row", &[1, 1, 9]),
            ("no row", &[]),
            ("20 rows", &[MOST; 20]),
        ] {
            for values in [0, 12] {
                let label = format!("values bad file {name} {what} area {values}");
                cases.values_refused(&label, &file, record, values, refusal);
            }
        }
    }

    // The numbers after 11 in order
    let w = job_w();
    let misfit = advance(3, 0, &[]);
    for (marks, state, number) in [(5, misfit, 12), (6, misfit, 13), (5, State::fresh(), 12)] {
        let label = format!("W {marks} marks {}", step_name(&state));
        cases.run_refused(&label, &w, state, &vec![4; marks], 6, (number, 0));
    }
    for (what, record, values, number) in [
        ("disagreeing short", [0, 1, 0], 2, 14),
        ("disagreeing", [0, 1, 0], 3, 14),
        ("good short", [1, 1, 0], 2, 15),
    ] {
        cases.values_refused(&format!("W {what}"), &w, &record, values, (number, 0));
    }

    // State numbers that are no state, with other faults
    cases.no_state("no state and few marks", &w, &[0; 13], &[0; 5]);
    cases.no_state("no state and a bad file", &[0; 11], &[3; 14], &[]);
}

/// Files near and over the greatest length, and as many rows as there can be.
fn great_files(cases: &mut Cases) {
    let over = vec![0; 65_536];
    assert_eq!(
        cases
            .begin("begin 65536 bytes", &over, &[1])
            .unwrap_err()
            .number,
        1
    );
    let tables: Vec<Table> = [4_096, 4_096, 4_096, 4_076]
        .iter()
        .enumerate()
        .map(|(i, &rows)| Table::filled(1 << i, rows))
        .collect();
    let most = straight(&tables);
    assert_eq!(most.len(), 65_532);
    let rows = live(&most).len();
    assert_eq!(rows, 16_364);

    let dirty: Vec<u8> = (0..20_000).map(|i| (i % 251) as u8).collect();
    let answer = cases.begin("begin most rows", &most, &dirty);
    assert_eq!(answer, Ok(State::fresh()));

    // The last rows of every table
    let state = advance(3, 4_075, &[4_095; 3]);
    let mut marks = vec![0; rows];
    marks[4_096..]
        .iter_mut()
        .step_by(5)
        .for_each(|mark| *mark = 2);
    let label = "most rows the last of each table";
    let stop = cases.run(label, &most, state, &marks, 9, 12).unwrap();
    assert_eq!(stop.reason, Reason::Ended);
    let values = cases.values(
        "most rows last values",
        &most,
        &[4_095, 4_095, 4_095, 4_075],
        5,
    );
    assert_eq!(values, Ok(vec![4_096, 4_096, 4_096, 4_076]));
}

// ---- the cases: random jobs and states --------------------------------------

/// A random table with this mask, up to five rows, its values drawn from these.
fn random_table(dice: &mut Dice, mask: u32, values: &[i32]) -> Table {
    let rows = dice.one(&[0, 1, 2, 2, 3, 3, 4, 4, 5, 5, 5, 5]);
    let row = |dice: &mut Dice| (0..mask.count_ones()).map(|_| dice.one(values)).collect();
    Table {
        mask,
        rows: (0..rows).map(|_| row(dice)).collect(),
    }
}

/// A random job of `k` tables over five columns that is accepted and has at
/// most 40 records.
fn random_job(dice: &mut Dice, k: usize) -> Vec<u8> {
    loop {
        let values = dice.one(&[&[0, 1][..], &[0, 1, 2], &[-1, i32::MIN, i32::MAX]]);
        let tables: Vec<Table> = (0..k)
            .map(|_| {
                let mask = 1 + dice.below(31) as u32;
                random_table(dice, mask, values)
            })
            .collect();
        let file = job(&dice.order(k), &tables);
        let Ok(accepted) = read(&file) else {
            continue;
        };
        let records = natural_join(&file, &accepted).len();
        // Most jobs should have something to run through.
        if records <= 40 && (records > 0 || dice.below(4) == 0) {
            return file;
        }
    }
}

/// Random accepted jobs, walked whole and with random pauses; and values of
/// their records and of other choices.
fn random_jobs(cases: &mut Cases) {
    let mut dice = Dice::from(0x9e37_79b9_7f4a_7c15);
    for number in 0..150 {
        let k = 1 + (number + 4) % 5;
        let file = random_job(&mut dice, k);
        let name = format!("random {number}");
        let steps = cases.whole(&name, &file).state.steps as usize;
        let rows = live(&file).len();

        for pauses in 0..2 {
            let budget = 1 + steps / 12 + dice.below(1 + steps / 4);
            let area = match dice.below(12) {
                0 => dice.below(k),
                1..=4 => k,
                _ => k + dice.below(3 * k + 2),
            };
            let longer = dice.below(3);
            let marks = dice.marks(rows + longer);
            let label = format!("{name} walk {pauses}");
            cases.walk(&label, &file, &marks, budget as u32, area);
        }

        let counts = row_counts(&file);
        let joined = natural_join(&file, &read(&file).unwrap());
        for record in joined.iter().step_by(1 + joined.len() / 2) {
            let label = format!("{name} values of{}", spoken(record));
            let values = 5 + dice.below(2);
            assert!(cases.values(&label, &file, record, values).is_ok());
        }
        let other: Vec<u32> = counts
            .iter()
            .map(|&rows| dice.below(rows as usize + 1) as u32)
            .collect();
        let label = format!("{name} values of others{}", spoken(&other));
        let _ = cases.values(&label, &file, &other, 6);
    }
}

/// A random fitting state of a job.
fn random_state(dice: &mut Dice, file: &[u8]) -> State {
    let rows = row_counts(file);
    let filled = rows.iter().take_while(|&&count| count > 0).count();
    let at = dice.below(rows.len().min(filled + 1));
    let chosen: Vec<u32> = rows[..at]
        .iter()
        .map(|&count| dice.below(count as usize) as u32)
        .collect();
    let state = if at > 0 && dice.below(2) == 0 {
        lookup(at, &chosen)
    } else {
        advance(at, dice.below(rows[at] as usize + 1) as u32, &chosen)
    };
    let steps = dice.one(&[0, 1, 50, STEP_LIMIT - 9, STEP_LIMIT - 1]);
    let part = |dice: &mut Dice| dice.below(steps as usize + 1) as u32;
    counted(state, steps, part(dice), part(dice))
}

/// Random states under random marks: fitting ones, and ones with a number
/// changed.
fn random_states(cases: &mut Cases) {
    let mut dice = Dice::from(0x2545_f491_4f6c_dd1d);
    for number in 0..200 {
        let k = 1 + (number + 4) % 5;
        let file = random_job(&mut dice, k);
        let rows = live(&file).len();
        let state = random_state(&mut dice, &file);
        let marks = dice.marks(rows + number % 2);
        let budget = dice.below(40) as u32;
        let area = k + dice.below(4 * k);
        let label = format!("random state {number}");
        let answer = cases.run(&label, &file, state, &marks, budget, area);
        assert!(answer.is_ok(), "{label}");

        let mut numbers = state.flat();
        numbers[dice.below(14)] = dice.one(&[0, 1, 2, 3, 5, 6, STEP_LIMIT, MOST]);
        let label = format!("random state {number} changed");
        match State::from_flat(&numbers) {
            Some(changed) => {
                let _ = cases.run(&label, &file, changed, &marks, budget, area);
            }
            None => cases.no_state(&label, &file, &numbers, &marks),
        }
    }
}
