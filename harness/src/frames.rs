//! The frames that the case programs read: one case each, numbers in four
//! bytes, little-endian.

/// Limits of a frame. A case program stops at one that is over them.
pub const MOST_LABEL: usize = 200;
pub const MOST_FILE: usize = 70_000;
pub const MOST_MARKS: usize = 20_000;
pub const MOST_NUMBERS: usize = 20;
pub const MOST_AREA: usize = 200;
pub const MOST_VALUES: usize = 64;

/// What a place of a lent area holds.
pub const EMPTY: u32 = u32::MAX;

/// What a place of a lent value area holds.
pub const NO_VALUE: i32 = -7;

/// The operations of `run_cases`. A walk begins and makes run calls until the
/// run has ended.
pub const BEGIN: u32 = 1;
pub const RUN: u32 = 2;
pub const JOIN_VALUES: u32 = 3;
pub const WALK: u32 = 4;

/// What one frame of `run_cases` holds.
#[derive(Clone, Copy, Default)]
pub struct Frame<'a> {
    pub op: u32,
    pub label: &'a str,
    pub file: &'a [u8],
    pub marks: &'a [u8],
    pub state: &'a [u32],
    pub record: &'a [u32],
    pub budget: u32,
    pub area: usize,
    pub values: usize,
}

impl Frame<'_> {
    /// Adds the frame to an input: nine numbers (operation, label length, file
    /// length, marks length, count of state numbers, count of record numbers,
    /// budget, area length, values length), then the label, the file, the
    /// marks, the state numbers and the record numbers.
    pub fn put(&self, input: &mut Vec<u8>) {
        let Frame { label, .. } = *self;
        check(label, self.file);
        assert!(self.marks.len() <= MOST_MARKS, "{label}");
        assert!(self.state.len() <= MOST_NUMBERS, "{label}");
        assert!(self.record.len() <= MOST_NUMBERS, "{label}");
        assert!(self.area <= MOST_AREA, "{label}");
        assert!(self.values <= MOST_VALUES, "{label}");

        let header = [
            self.op,
            label.len() as u32,
            self.file.len() as u32,
            self.marks.len() as u32,
            self.state.len() as u32,
            self.record.len() as u32,
            self.budget,
            self.area as u32,
            self.values as u32,
        ];
        input.extend(header.iter().flat_map(|n| n.to_le_bytes()));
        input.extend(label.as_bytes());
        input.extend(self.file);
        input.extend(self.marks);
        let numbers = self.state.iter().chain(self.record);
        input.extend(numbers.flat_map(|n| n.to_le_bytes()));
    }
}

/// Adds a frame of `read_cases` to an input: the label's length and the
/// file's, then the label and the file.
pub fn put_read_frame(label: &str, file: &[u8], input: &mut Vec<u8>) {
    check(label, file);
    input.extend((label.len() as u32).to_le_bytes());
    input.extend((file.len() as u32).to_le_bytes());
    input.extend(label.as_bytes());
    input.extend(file);
}

/// Labels are plain, so that a line can be taken apart by eye.
fn check(label: &str, file: &[u8]) {
    let plain = |b: u8| b == b' ' || b.is_ascii_alphanumeric();
    assert!(label.len() <= MOST_LABEL, "{label}");
    assert!(label.bytes().all(plain), "{label}");
    assert!(file.len() <= MOST_FILE, "{label}");
}
