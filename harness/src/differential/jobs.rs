//! The file of a random job: of some shape, and damaged or not, in fixed
//! proportions.

use super::damage::{self, aim_at, make_faults};
use super::kinds::*;
use super::shapes::{self, Shape};
use crate::dice::Dice;

/// A file, and what it is.
#[derive(Clone, Debug)]
pub struct Made {
    pub file: Vec<u8>,
    pub kinds: Vec<&'static str>,
}

/// How often each kind of file is made, of a thousand.
const PROPORTIONS: [(&str, usize); 12] = [
    (GROWN_PLAN, 420),
    (ARBITRARY_PLAN, 80),
    (MANY_ROWS, 30),
    (GREATEST_SIZES, 1),
    (BIT_FLIPS, 60),
    (CUT, 30),
    (EXTENDED, 30),
    (BYTE_EDITS, 60),
    (NUMBER_EDITS, 50),
    (BYTES_MOVED, 29),
    (ONE_REFUSAL, 110),
    (TWO_REFUSALS, 100),
];

/// A random job file.
pub fn make(dice: &mut Dice) -> Made {
    let kind = draw(dice);
    match kind {
        GROWN_PLAN => plain(shapes::grown(dice)),
        ARBITRARY_PLAN => plain(shapes::arbitrary(dice)),
        MANY_ROWS => plain(shapes::many_rows(dice)),
        GREATEST_SIZES => greatest(dice),
        ONE_REFUSAL => refused_on_purpose(dice, kind, 1),
        TWO_REFUSALS => refused_on_purpose(dice, kind, 2),
        _ => damaged(dice, kind),
    }
}

/// A kind, in its proportion.
fn draw(dice: &mut Dice) -> &'static str {
    let mut left = dice.below(PROPORTIONS.iter().map(|(_, share)| share).sum());
    for (kind, share) in PROPORTIONS {
        if left < share {
            return kind;
        }
        left -= share;
    }
    unreachable!("the shares are all there is")
}

fn plain(shape: Shape) -> Made {
    Made {
        file: shape.file(),
        kinds: shape.kinds,
    }
}

/// A job at the limits, now and then a little longer than it should be: 65,535
/// bytes may be read, 65,536 may not.
fn greatest(dice: &mut Dice) -> Made {
    let mut made = plain(shapes::greatest(dice));
    let length = dice.one(&[0, 0, 0, 65_535, 65_536, 65_600]);
    if length > made.file.len() {
        made.file.resize(length, 0);
    }
    made
}

/// A job with damage that is not aimed at anything. It may still be accepted,
/// where only values changed.
fn damaged(dice: &mut Dice, kind: &'static str) -> Made {
    let mut made = plain(shapes::grown(dice));
    match kind {
        BIT_FLIPS => damage::flip_bits(dice, &mut made.file),
        CUT => damage::cut(dice, &mut made.file),
        EXTENDED => damage::extend(dice, &mut made.file),
        BYTE_EDITS => damage::edit_bytes(dice, &mut made.file),
        NUMBER_EDITS => damage::edit_numbers(dice, &mut made.file),
        _ => damage::move_bytes(dice, &mut made.file),
    }
    made.kinds.push(kind);
    made
}

/// A job with one or two different faults of 1 to 11, aimed at.
fn refused_on_purpose(dice: &mut Dice, kind: &'static str, faults: usize) -> Made {
    let mut numbers: Vec<u32> = Vec::new();
    while numbers.len() < faults {
        let number = 1 + dice.below(11) as u32;
        if !numbers.contains(&number) {
            numbers.push(number);
        }
    }
    let k = match numbers.contains(&11) {
        true => 3 + dice.below(6),
        false => 1 + dice.below(8),
    };
    let aims: Vec<_> = numbers.iter().map(|&n| aim_at(dice, n, k)).collect();
    let shape = match aims.iter().find(|aim| aim.number == 11) {
        Some(aim) => shapes::without_parent(dice, k, aim.place),
        None => shapes::grown_of(dice, k),
    };
    let mut made = plain(shape.clone());
    make_faults(dice, &shape, &mut made.file, &aims);
    made.kinds.push(kind);
    made
}
