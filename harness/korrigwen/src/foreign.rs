//! The four functions of `include/korrigwen.h`, with their answers as numbers. Each answer has all
//! the numbers that the library gives; those that say nothing in a refusal are 0 there.

/// A contents entry, as the file has it.
#[repr(C)]
#[derive(Clone, Copy, Debug, Default, PartialEq, Eq)]
pub struct Entry {
    /// Field count.
    pub fields: u32,
    /// Row count.
    pub rows: u32,
    /// Column mask.
    pub mask: u32,
    /// Body offset.
    pub offset: u32,
}

/// A state of a run: all that a run needs beside file and marks. Any numbers may be handed in;
/// those of no state, or of one that does not fit the job, get refusal 13.
#[repr(C)]
#[derive(Clone, Copy, Debug, Default, PartialEq, Eq)]
pub struct State {
    /// The next step: 0 none, for the run has ended; 1 an advance; 2 a lookup.
    pub kind: u32,
    /// The plan position of the next step.
    pub position: u32,
    /// The row from which an advance starts.
    pub start: u32,
    /// The chosen rows of the positions before.
    pub chosen: [u32; 8],
    /// Steps so far.
    pub steps: u32,
    /// Lookups so far.
    pub lookups: u32,
    /// Records so far.
    pub records: u32,
}

impl From<[u32; 14]> for State {
    /// The numbers in the order of the fields.
    fn from(numbers: [u32; 14]) -> State {
        let [kind, position, start, chosen @ .., steps, lookups, records] = numbers;
        State {
            kind,
            position,
            start,
            chosen,
            steps,
            lookups,
            records,
        }
    }
}

impl From<State> for [u32; 14] {
    /// The numbers in the order of the fields.
    fn from(state: State) -> [u32; 14] {
        let [a, b, c, d, e, f, g, h] = state.chosen;
        [
            state.kind,
            state.position,
            state.start,
            a,
            b,
            c,
            d,
            e,
            f,
            g,
            h,
            state.steps,
            state.lookups,
            state.records,
        ]
    }
}

/// What reading answers. Places from k on, and the root's parent, are 0.
#[repr(C)]
#[derive(Clone, Copy, Debug, PartialEq, Eq)]
pub struct Reading {
    /// 0, or the number of the refusal.
    pub number: u32,
    /// The place of the refusal.
    pub place: usize,
    /// The number of tables.
    pub k: usize,
    /// The plan's eight bytes.
    pub plan: [u8; 8],
    /// The entries, in contents order.
    pub entries: [Entry; 8],
    /// The parents, in plan order.
    pub parents: [usize; 8],
}

/// What beginning answers.
#[repr(C)]
#[derive(Clone, Copy, Debug, PartialEq, Eq)]
pub struct Begun {
    /// 0, or the number of the refusal.
    pub number: u32,
    /// The place of the refusal.
    pub place: usize,
    /// The fresh state.
    pub state: State,
}

/// What running answers.
#[repr(C)]
#[derive(Clone, Copy, Debug, PartialEq, Eq)]
pub struct Ran {
    /// 0, or the number of the refusal.
    pub number: u32,
    /// The place of the refusal.
    pub place: usize,
    /// Why it stopped: 0 ended, 1 step limit, 2 budget spent, 3 no room.
    pub reason: u32,
    /// The next state.
    pub state: State,
}

/// What joining values answers.
#[repr(C)]
#[derive(Clone, Copy, Debug, PartialEq, Eq)]
pub struct Joined {
    /// 0, or the number of the refusal.
    pub number: u32,
    /// The place of the refusal.
    pub place: usize,
    /// The number of distinct columns.
    pub columns: usize,
}

extern "C" {
    fn korrigwen_read(file: *const u8, file_length: usize) -> Reading;

    fn korrigwen_begin(
        file: *const u8,
        file_length: usize,
        marks: *mut u8,
        marks_length: usize,
    ) -> Begun;

    fn korrigwen_run(
        file: *const u8,
        file_length: usize,
        state: State,
        marks: *mut u8,
        marks_length: usize,
        budget: u32,
        area: *mut u32,
        area_length: usize,
    ) -> Ran;

    fn korrigwen_join_values(
        file: *const u8,
        file_length: usize,
        record: *const u32,
        record_length: usize,
        values: *mut i32,
        values_length: usize,
    ) -> Joined;
}

/// Reads and checks a job file: 1 to 11, or the job.
pub fn read(file: &[u8]) -> Reading {
    // SAFETY: the pointer is the slice's own, not null and good for its length; the function only
    // reads there.
    unsafe { korrigwen_read(file.as_ptr(), file.len()) }
}

/// Begins a run: 1 to 12, or the fresh state; then the bytes of the job's rows are 0.
pub fn begin(file: &[u8], marks: &mut [u8]) -> Begun {
    // SAFETY: each pointer is its slice's own, not null and good for its length; the mark area is
    // borrowed for writing, so it does not overlap the file, which is only read.
    unsafe { korrigwen_begin(file.as_ptr(), file.len(), marks.as_mut_ptr(), marks.len()) }
}

/// Takes at most `budget` steps: 1 to 13, or why it stopped and the next state.
pub fn run(file: &[u8], state: &State, marks: &mut [u8], budget: u32, area: &mut [u32]) -> Ran {
    // SAFETY: each pointer is its slice's own, not null, aligned and good for its length; marks and
    // area are borrowed for writing, so neither overlaps the other or the file. Any numbers may
    // stand in the state.
    unsafe {
        korrigwen_run(
            file.as_ptr(),
            file.len(),
            *state,
            marks.as_mut_ptr(),
            marks.len(),
            budget,
            area.as_mut_ptr(),
            area.len(),
        )
    }
}

/// Joins a record's values: 1 to 11, 14, 15, or the number of distinct columns.
pub fn join_values(file: &[u8], record: &[u32], values: &mut [i32]) -> Joined {
    // SAFETY: each pointer is its slice's own, not null, aligned and good for its length; the value
    // area is borrowed for writing, so it overlaps neither file nor record, which are only read.
    unsafe {
        korrigwen_join_values(
            file.as_ptr(),
            file.len(),
            record.as_ptr(),
            record.len(),
            values.as_mut_ptr(),
            values.len(),
        )
    }
}
