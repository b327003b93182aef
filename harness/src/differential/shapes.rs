//! Random jobs of many shapes, small enough that a nested-loop join of them is
//! cheap.

use super::kinds::*;
use crate::build::{job, Table};
use crate::dice::Dice;

/// A job before it is written, and what is special about it.
#[derive(Clone, Debug)]
pub struct Shape {
    pub plan: Vec<u8>,
    pub tables: Vec<Table>,
    pub kinds: Vec<&'static str>,
}

impl Shape {
    /// The job file.
    pub fn file(&self) -> Vec<u8> {
        job(&self.plan, &self.tables)
    }

    pub fn k(&self) -> usize {
        self.tables.len()
    }
}

/// How the tables of a grown job hang together.
const STYLES: [&str; 8] = [TREE, TREE, TREE, CHAIN, STAR, APART, SAME_COLUMNS, WIDE];

/// A job whose plan keeps the ear rule by construction: each position takes its
/// keys from one earlier position, and its other columns are new.
pub fn grown(dice: &mut Dice) -> Shape {
    let k = tables(dice);
    grown_of(dice, k)
}

/// The same, of `k` tables.
pub fn grown_of(dice: &mut Dice, k: usize) -> Shape {
    let style = dice.one(&STYLES);
    let masks = grown_masks(dice, k, style);
    let counts = small_counts(dice, k);
    let mut shape = filled(dice, &masks, &counts);
    shape.kinds.extend([GROWN_PLAN, style]);
    shape
}

/// A job whose masks and plan are drawn without a look at the ear rule.
pub fn arbitrary(dice: &mut Dice) -> Shape {
    let k = tables(dice);
    let most = (1 << (1 + dice.below(6))) - 1;
    let shift = dice.below(27);
    let masks: Vec<u32> = (0..k)
        .map(|_| (1 + dice.below(most) as u32) << shift)
        .collect();
    let counts = small_counts(dice, k);
    let mut shape = filled(dice, &masks, &counts);
    shape.kinds.push(ARBITRARY_PLAN);
    shape
}

/// A job with tens of rows in each table and more distinct values, so that many
/// rows find no partner.
pub fn many_rows(dice: &mut Dice) -> Shape {
    let k = 1 + dice.below(4);
    let style = dice.one(&[CHAIN, STAR]);
    let masks = grown_masks(dice, k, style);
    let counts: Vec<usize> = (0..k).map(|_| 10 + dice.below(50)).collect();
    let values = Values {
        pool: (0..30).collect(),
        planted: Vec::new(),
    };
    let mut shape = filled_from(dice, &masks, &counts, &values);
    shape.kinds.push(MANY_ROWS);
    shape
}

/// A job whose plan fails the ear rule at `position`, which is 2 or more, and
/// nowhere before: two earlier tables get a column each that only this
/// position's table has too, so no earlier table has both.
pub fn without_parent(dice: &mut Dice, k: usize, position: usize) -> Shape {
    let style = dice.one(&[TREE, CHAIN, STAR, APART]);
    let mut masks = grown_masks(dice, k, style);
    let used = masks.iter().fold(0, |all, mask| all | mask);
    let mut unused = (0..32).map(|c| 1 << c).filter(|bit| used & bit == 0);
    let (a, b): (u32, u32) = (unused.next().unwrap(), unused.next().unwrap());
    let first = dice.below(position - 1);
    let second = first + 1 + dice.below(position - first - 1);
    masks[first] |= a;
    masks[second] |= b;
    masks[position] |= a | b;
    let counts = small_counts(dice, k);
    filled(dice, &masks, &counts)
}

/// A job at the limits of rows, columns and length.
pub fn greatest(dice: &mut Dice) -> Shape {
    let few = 2 + dice.below(6);
    let (masks, counts) = match dice.below(7) {
        // "4,096 rows accepted, 4,097 refused with 7"
        0 => (vec![1], vec![4_096]),
        1 => (vec![1 << 31], vec![4_097]),
        // "16 columns accepted, 17 refused with 5"
        2 => (vec![0xffff], vec![1_000]),
        3 => (vec![0x1_ffff], vec![900]),
        // The greatest length that is accepted, 65,532 bytes, and as many rows as there can be
        4 => (vec![1, 2, 4, 8], vec![4_096, 4_096, 4_096, 4_076]),
        5 => ((0..8).map(|c| 1 << c).collect(), vec![2_000; 8]),
        _ => (vec![3, 6], vec![few, 4_096]),
    };
    let values = Values {
        pool: (-20..20).collect(),
        planted: Vec::new(),
    };
    let mut shape = filled_from(dice, &masks, &counts, &values);
    shape.kinds.push(GREATEST_SIZES);
    shape
}

/// A number of tables, 1 to 8, the small ones more often.
fn tables(dice: &mut Dice) -> usize {
    dice.one(&[1, 2, 2, 3, 3, 3, 4, 4, 5, 5, 6, 7, 8, 8])
}

/// Masks in plan order. At most 3 columns come new with a table, so that 8
/// tables leave some of the 32 unused; wide tables take what there is.
fn grown_masks(dice: &mut Dice, k: usize, style: &str) -> Vec<u32> {
    let mut unused: Vec<u8> = dice.order(32);
    let most = if style == WIDE { 16 } else { 3 };
    let first = 1 + dice.below(most);
    let mut masks = vec![take_columns(&mut unused, first)];
    for p in 1..k {
        let parent = match style {
            CHAIN => masks[p - 1],
            STAR => masks[0],
            _ => masks[dice.below(p)],
        };
        let keys = match style {
            APART => 0,
            SAME_COLUMNS => parent,
            CHAIN | STAR => some_of(dice, parent) | lowest(parent),
            _ => some_of(dice, parent),
        };
        let new = match style {
            SAME_COLUMNS => 0,
            WIDE => dice.below(17 - keys.count_ones() as usize),
            _ => dice.below(3),
        };
        let new = if keys == 0 { new.max(1) } else { new };
        let mask = keys | take_columns(&mut unused, new);
        // Wide tables may have used all columns up.
        masks.push(if mask == 0 { lowest(parent) } else { mask });
    }
    masks
}

/// A mask of so many columns that were not used before, or of those that are
/// left.
fn take_columns(unused: &mut Vec<u8>, count: usize) -> u32 {
    let left = unused.len().saturating_sub(count);
    unused.drain(left..).fold(0, |mask, c| mask | 1 << c)
}

/// Some columns of a mask, each with one chance in two.
fn some_of(dice: &mut Dice, mask: u32) -> u32 {
    mask & dice.number()
}

/// The lowest column of a mask.
fn lowest(mask: u32) -> u32 {
    mask & mask.wrapping_neg()
}

/// Row counts whose product is small, and now and then an empty table.
fn small_counts(dice: &mut Dice, k: usize) -> Vec<usize> {
    let most = dice.one(&[6, 30, 30, 120, 400]);
    let mut counts = vec![1; k];
    let mut product = 1;
    for p in dice.order(k) {
        let rows = 1 + dice.below(6);
        if product * rows <= most {
            product *= rows;
            counts[usize::from(p)] = rows;
        }
    }
    if dice.once_in(8) {
        counts[dice.below(k)] = 0;
    }
    counts
}

/// Where the values of rows come from.
struct Values {
    pool: Vec<i32>,
    /// Values by column, so that rows which take all theirs from one of these
    /// agree.
    planted: Vec<[i32; 32]>,
}

/// The job with these masks and row counts in plan order.
fn filled(dice: &mut Dice, masks: &[u32], counts: &[usize]) -> Shape {
    let (kind, pool) = pool(dice);
    let planted = dice.one(&[0, 1, 1, 2]);
    let planted = (0..planted)
        .map(|_| std::array::from_fn(|_| dice.one(&pool)))
        .collect();
    let values = Values { pool, planted };
    let mut shape = filled_from(dice, masks, counts, &values);
    shape.kinds.push(kind);
    shape
}

/// The job with these masks and row counts in plan order, in contents of any
/// order.
fn filled_from(dice: &mut Dice, masks: &[u32], counts: &[usize], values: &Values) -> Shape {
    let k = masks.len();
    let plan = match dice.once_in(4) {
        true => (0..k as u8).collect(),
        false => dice.order(k),
    };
    let mut tables = vec![Table::new(1, &[]); k];
    for (p, &table) in plan.iter().enumerate() {
        tables[usize::from(table)] = Table {
            mask: masks[p],
            rows: rows(dice, masks[p], counts[p], values),
        };
    }
    let kinds = special(&tables);
    Shape {
        plan,
        tables,
        kinds,
    }
}

/// What is special about the tables.
fn special(tables: &[Table]) -> Vec<&'static str> {
    let equal = |table: &Table| {
        let mut rows = table.rows.clone();
        rows.sort();
        rows.windows(2).any(|pair| pair[0] == pair[1])
    };
    let mut kinds = Vec::new();
    match tables.len() {
        1 => kinds.push(ONE_TABLE),
        8 => kinds.push(EIGHT_TABLES),
        _ => {}
    }
    if tables.iter().any(|table| table.rows.is_empty()) {
        kinds.push(EMPTY_TABLE);
    }
    if tables.iter().any(equal) {
        kinds.push(EQUAL_ROWS);
    }
    kinds
}

/// Rows of a table: planted ones, repeated ones, and others.
fn rows(dice: &mut Dice, mask: u32, count: usize, values: &Values) -> Vec<Vec<i32>> {
    let columns: Vec<usize> = (0..32).filter(|c| (mask >> c) & 1 == 1).collect();
    let mut rows: Vec<Vec<i32>> = Vec::new();
    for _ in 0..count {
        if !rows.is_empty() && dice.once_in(8) {
            rows.push(rows[dice.below(rows.len())].clone());
            continue;
        }
        let planted = match values.planted.len() {
            0 => None,
            _ if dice.once_in(3) => None,
            n => Some(values.planted[dice.below(n)]),
        };
        let value = |&column: &usize| match planted {
            Some(planted) if !dice.once_in(12) => planted[column],
            _ => dice.one(&values.pool),
        };
        rows.push(columns.iter().map(value).collect());
    }
    rows
}

/// A few values, and what kind they are.
fn pool(dice: &mut Dice) -> (&'static str, Vec<i32>) {
    let any = dice.number() as i32;
    match dice.below(10) {
        0..=1 => (FEW_VALUES, vec![0, 1]),
        2..=3 => (FEW_VALUES, vec![0, 1, 2]),
        4 => (FEW_VALUES, vec![-2, -1, 0, 1, 2]),
        5..=6 => (EXTREME_VALUES, vec![i32::MIN, i32::MAX, -1, 0]),
        7 => {
            let near = |_| any ^ (1 << dice.below(32));
            (
                NEAR_VALUES,
                [any].into_iter().chain((0..2).map(near)).collect(),
            )
        }
        8 => (ONE_VALUE, vec![any]),
        _ => (ANY_VALUES, (0..3).map(|_| dice.number() as i32).collect()),
    }
}

#[cfg(test)]
mod tests {
    use super::*;
    use crate::reader::{read, Refusal};

    #[test]
    fn grown_plans_are_accepted() {
        let mut dice = Dice::seeded(1);
        for _ in 0..3_000 {
            let shape = grown(&mut dice);
            assert!(read(&shape.file()).is_ok(), "{shape:?}");
            let shape = many_rows(&mut dice);
            assert!(read(&shape.file()).is_ok(), "{shape:?}");
        }
    }

    #[test]
    fn the_ear_rule_fails_at_the_position_aimed_at() {
        let mut dice = Dice::seeded(2);
        for k in 3..=8 {
            for position in 2..k {
                for _ in 0..50 {
                    let shape = without_parent(&mut dice, k, position);
                    let expected = Refusal {
                        number: 11,
                        place: position as u32,
                    };
                    assert_eq!(read(&shape.file()), Err(expected), "{shape:?}");
                }
            }
        }
    }
}
