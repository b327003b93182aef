//! Damage to job files: without aim, and aimed at each refusal of 1 to 11.

use super::shapes::Shape;
use crate::build::{entry_at, set_u32, Table, FIELDS, MASK, OFFSET, ROWS};
use crate::dice::Dice;

/// Document 01's greatest length of a file and greatest row count.
const LONGEST: usize = 65_535;
const MOST_ROWS: u32 = 4_096;

/// Numbers that stand near a limit or overflow something.
#[rustfmt::skip]
const ODD: [u32; 16] = [
    0, 1, 2, 3, 8, 9, 16, 17, 255, 256, MOST_ROWS, MOST_ROWS + 1,
    LONGEST as u32, LONGEST as u32 + 1, 0x8000_0000, u32::MAX,
];

// ---- without aim --------------------------------------------------------------

/// A place in the file, half the time in its first part, where the numbers are
/// that reading looks at.
fn place(dice: &mut Dice, file: &[u8]) -> usize {
    match dice.once_in(2) {
        true => dice.below(file.len().min(12 + 16 * 3)),
        false => dice.below(file.len()),
    }
}

/// One to three bits turned over.
pub fn flip_bits(dice: &mut Dice, file: &mut [u8]) {
    for _ in 0..1 + dice.below(3) {
        file[place(dice, file)] ^= 1 << dice.below(8);
    }
}

/// One to four bytes overwritten.
pub fn edit_bytes(dice: &mut Dice, file: &mut [u8]) {
    for _ in 0..1 + dice.below(4) {
        let any = dice.number() as u8;
        file[place(dice, file)] = dice.one(&[0, 1, 2, 7, 8, 255, any, any]);
    }
}

/// One or two numbers overwritten.
pub fn edit_numbers(dice: &mut Dice, file: &mut [u8]) {
    for _ in 0..1 + dice.below(2) {
        let at = place(dice, file) / 4 * 4;
        let (odd, any) = (dice.one(&ODD), dice.number());
        let number = dice.one(&[odd, any, any % 64]);
        if at + 4 <= file.len() {
            set_u32(file, at, number);
        }
    }
}

/// The file cut anywhere, or by a few bytes.
pub fn cut(dice: &mut Dice, file: &mut Vec<u8>) {
    let length = match dice.once_in(2) {
        true => dice.below(file.len()),
        false => file.len() - 1 - dice.below(file.len().min(16)),
    };
    file.truncate(length);
}

/// The file with some bytes more.
pub fn extend(dice: &mut Dice, file: &mut Vec<u8>) {
    for _ in 0..1 + dice.below(20) {
        let any = dice.number() as u8;
        file.push(dice.one(&[0, any]));
    }
}

/// Some bytes put in or taken out, so that all that follows moves.
pub fn move_bytes(dice: &mut Dice, file: &mut Vec<u8>) {
    let at = place(dice, file);
    let count = dice.one(&[1, 2, 4, 8, 16]);
    if dice.once_in(2) {
        file.drain(at..file.len().min(at + count));
    } else {
        file.splice(at..at, vec![dice.number() as u8; count]);
    }
}

// ---- aimed --------------------------------------------------------------------

/// A fault to be made: the refusal, and the plan byte, entry or position that
/// it is to be given for.
#[derive(Clone, Copy, Debug, PartialEq, Eq)]
pub struct Aim {
    pub number: u32,
    pub place: usize,
}

/// Any aim at this refusal in a job of `k` tables, 3 or more for 11.
pub fn aim_at(dice: &mut Dice, number: u32, k: usize) -> Aim {
    let place = match number {
        4 => dice.below(8),
        5..=9 => dice.below(k),
        11 => 2 + dice.below(k - 2),
        _ => 0,
    };
    Aim { number, place }
}

/// Makes these faults in the file of a shape; one of 11 is in the shape already.
/// What changes the length comes last, so that both of two faults mostly stand.
pub fn make_faults(dice: &mut Dice, shape: &Shape, file: &mut Vec<u8>, aims: &[Aim]) {
    let others = |aim: &Aim| (4..=11).contains(&aim.number);
    let long = match aims.iter().any(others) && aims.len() > 1 {
        // A file under 12 bytes has no other fault of 4 to 11.
        true => !dice.once_in(4),
        false => dice.once_in(8),
    };
    let turns = match long {
        true => [2, 4, 5, 6, 7, 8, 1, 10, 9, 3],
        false => [2, 4, 5, 6, 7, 8, 10, 9, 3, 1],
    };
    for turn in turns {
        for &aim in aims.iter().filter(|aim| aim.number == turn) {
            make_fault(dice, shape, file, aim, long);
        }
    }
}

/// Makes a fault of 1 to 10.
fn make_fault(dice: &mut Dice, shape: &Shape, file: &mut Vec<u8>, aim: Aim, long: bool) {
    let k = shape.k();
    match aim.number {
        1 if long => file.resize(LONGEST + 1 + dice.below(100), 0),
        1 => file.truncate(dice.below(12)),
        2 => set_u32(file, 0, wrong_tables(dice, k as u32)),
        3 => {
            // Half the time in the last entry, so that the others can have faults.
            let part = dice.one(&[16, 16 * k]);
            file.truncate(entry_at(k) - 1 - dice.below(part));
        }
        4 => file[4 + aim.place] = wrong_plan_byte(dice, &file[4..12], k, aim.place),
        5..=8 => wrong_entry(dice, file, aim),
        9 => body_past_the_file(dice, shape, file, aim.place),
        10 => bytes_left(dice, file, k),
        _ => {}
    }
}

/// A number of tables that is 0 or over 8.
fn wrong_tables(dice: &mut Dice, k: u32) -> u32 {
    let any = dice.number().max(9);
    dice.one(&[0, 0, 9, 9, 10, 256 + k, 65_536 + k, 0x8000_0000 + k, any])
}

/// "a byte below position k is faulty if it is k or more or repeats an earlier
/// byte; a byte from position k on is faulty if it is not 0"
fn wrong_plan_byte(dice: &mut Dice, plan: &[u8], k: usize, place: usize) -> u8 {
    let some = 1 + dice.below(255) as u8;
    if place >= k {
        return dice.one(&[1, 255, some]);
    }
    if place > 0 && dice.once_in(2) {
        return plan[dice.below(place)];
    }
    dice.one(&[k as u8, k as u8 + 1, 255, some.max(k as u8)])
}

/// An entry with a wrong mask, field count, row count or offset.
fn wrong_entry(dice: &mut Dice, file: &mut [u8], aim: Aim) {
    let at = entry_at(aim.place);
    let number = |which: usize| number_at(file, at + which);
    let (which, wrong) = match aim.number {
        5 => (MASK, wrong_mask(dice)),
        6 => (FIELDS, other_than(dice, number(MASK).count_ones())),
        7 => (ROWS, too_many_rows(dice, number(ROWS))),
        _ => (OFFSET, other_than(dice, number(OFFSET))),
    };
    set_u32(file, at + which, wrong);
}

/// A row count over 4,096; the least of them often, for a file can have so many
/// rows and bytes left.
fn too_many_rows(dice: &mut Dice, rows: u32) -> u32 {
    let any = dice.number().max(MOST_ROWS + 1);
    let great = [
        MOST_ROWS + 2,
        65_536 + rows,
        0x8000_0000 + rows,
        u32::MAX,
        any,
    ];
    match dice.once_in(2) {
        true => MOST_ROWS + 1,
        false => dice.one(&great),
    }
}

/// A mask with no column, or with 17 or more.
fn wrong_mask(dice: &mut Dice) -> u32 {
    let mut mask = dice.number();
    while mask.count_ones() < 17 {
        mask |= 1 << dice.below(32);
    }
    dice.one(&[0, 0x1_ffff, mask, u32::MAX])
}

/// Another number than this: near it, far from it, or equal in its low bytes.
fn other_than(dice: &mut Dice, right: u32) -> u32 {
    let (bit, any) = (1 << dice.below(32), dice.number());
    let wrong = dice.one(&[
        right.wrapping_add(1),
        right.wrapping_sub(1),
        right.wrapping_add(4),
        right.wrapping_add(256),
        right.wrapping_add(65_536),
        right ^ bit,
        0,
        u32::MAX,
        any,
    ]);
    match wrong == right {
        true => !right,
        false => wrong,
    }
}

/// The file cut within the entry's body; or so many rows that no file of this
/// length has them, in a table of 16 columns where one column would not do.
fn body_past_the_file(dice: &mut Dice, shape: &Shape, file: &mut Vec<u8>, entry: usize) {
    let k = shape.k();
    let body = shape.tables[entry].body_len();
    let bodies = shape.tables[..entry].iter().map(Table::body_len);
    let start = entry_at(k) + bodies.sum::<usize>();
    // A file that is too long stays so.
    if body > 0 && file.len() <= LONGEST && dice.once_in(2) {
        file.truncate(start + dice.below(body));
        return;
    }
    let at = entry_at(entry);
    let rows = MOST_ROWS - dice.below(2) as u32;
    set_u32(file, at + ROWS, rows);
    if file.len() > 4 * rows as usize {
        set_u32(file, at + FIELDS, 16);
        set_u32(file, at + MASK, 0xffff);
    }
}

/// Bytes after the end that the entries give, if a file can be so long; or
/// fewer rows in the last table.
fn bytes_left(dice: &mut Dice, file: &mut Vec<u8>, k: usize) {
    let last = entry_at(k - 1);
    let rows = number_at(file, last + ROWS);
    if (1..=MOST_ROWS).contains(&rows) && dice.once_in(3) {
        let fewer = dice.below(rows as usize) as u32;
        set_u32(file, last + ROWS, fewer);
        return;
    }
    let body = |i: usize| {
        let at = entry_at(i);
        let ones = number_at(file, at + MASK).count_ones() as usize;
        4 * ones * number_at(file, at + ROWS) as usize
    };
    let end = entry_at(k) + (0..k).map(body).sum::<usize>();
    let length = end.max(file.len()) + 1 + dice.below(8);
    if length <= LONGEST {
        file.resize(length, 0);
    }
}

fn number_at(file: &[u8], at: usize) -> u32 {
    u32::from_le_bytes(file[at..at + 4].try_into().expect("four bytes"))
}

#[cfg(test)]
mod tests {
    use super::*;
    use crate::differential::shapes;
    use crate::faults::standing;
    use crate::reader::{read, Refusal};
    use std::collections::BTreeSet;

    fn shape(dice: &mut Dice, aims: &[Aim]) -> Shape {
        match aims.iter().find(|aim| aim.number == 11) {
            Some(aim) => shapes::without_parent(dice, 8, aim.place),
            None => shapes::grown_of(dice, 8),
        }
    }

    #[test]
    fn one_fault_gets_its_number_and_place() {
        let mut dice = Dice::seeded(3);
        for number in 1..=11 {
            for _ in 0..400 {
                let aim = aim_at(&mut dice, number, 8);
                let shape = shape(&mut dice, &[aim]);
                let mut file = shape.file();
                make_faults(&mut dice, &shape, &mut file, &[aim]);
                let expected = Refusal {
                    number,
                    place: aim.place as u32,
                };
                assert_eq!(read(&file), Err(expected), "{shape:?}");
            }
        }
    }

    #[test]
    fn two_faults_stand_together() {
        let mut dice = Dice::seeded(4);
        let mut pairs = BTreeSet::new();
        for a in 1..=11 {
            for b in (a + 1..=11).filter(|&b| (a, b) != (3, 10) && (a, b) != (9, 10)) {
                let mut both = 0;
                for _ in 0..100 {
                    let aims = [aim_at(&mut dice, a, 8), aim_at(&mut dice, b, 8)];
                    let shape = shape(&mut dice, &aims);
                    let mut file = shape.file();
                    make_faults(&mut dice, &shape, &mut file, &aims);
                    let faults = standing(&file);
                    let has = |number| faults.iter().any(|fault| fault.0 == number);
                    both += usize::from(has(a) && has(b));
                }
                assert!(both > 5, "{a} and {b}: {both} of 100");
                pairs.insert((a, b));
            }
        }
        assert_eq!(pairs.len(), 53);
    }
}
