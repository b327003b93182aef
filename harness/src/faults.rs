//! All faults of a file, found without stopping at the first: a check on the
//! reader, and the way to see that two faults stand in one file.

use crate::build::{entry_at, FIELDS, MASK, OFFSET, ROWS};

/// All faults of a file as (number, place), in document 01's order, without
/// stopping at the first. What a fault leaves readable is read on: with k over
/// 8 the first 9 entries are looked at, in a short file those that are whole.
pub fn standing(file: &[u8]) -> Vec<(u32, u32)> {
    let length = file.len() as u64;
    let mut faults = Vec::new();

    if !(12..=65_535).contains(&length) {
        faults.push((1, 0));
    }
    if length < 4 {
        return faults;
    }
    let k = u64::from(number_at(file, 0));
    if !(1..=8).contains(&k) {
        faults.push((2, 0));
    }
    if length < 12 + 16 * k {
        faults.push((3, 0));
    }
    if length < 12 {
        return faults;
    }

    let plan = &file[4..12];
    let in_plan = k.min(8) as usize;
    let faulty = |p: usize| match p < in_plan {
        true => u64::from(plan[p]) >= k || plan[..p].contains(&plan[p]),
        false => plan[p] != 0,
    };
    faults.extend((0..8).find(|&p| faulty(p)).map(|p| (4, p as u32)));

    let masks = entries(file, k, &mut faults);
    faults.extend(ear(&plan[..in_plan], &masks));
    faults
}

/// Adds the faults of the whole entries, 5 to 9, and 10. Gives the entries'
/// masks.
fn entries(file: &[u8], k: u64, faults: &mut Vec<(u32, u32)>) -> Vec<u32> {
    let length = file.len() as u64;
    let whole = k.min(9).min((length - 12) / 16) as usize;
    let mut masks = Vec::new();
    let mut end = 12 + 16 * k;
    for i in 0..whole {
        let at = entry_at(i);
        let mask = number_at(file, at + MASK);
        let ones = mask.count_ones();
        let rows = number_at(file, at + ROWS);
        let start = end;
        end += u64::from(ones) * u64::from(rows) * 4;
        let here = [
            (5, !(1..=16).contains(&ones)),
            (6, number_at(file, at + FIELDS) != ones),
            (7, rows > 4_096),
            (8, u64::from(number_at(file, at + OFFSET)) != start),
            (9, end > length),
        ];
        faults.extend(here.iter().filter(|f| f.1).map(|f| (f.0, i as u32)));
        masks.push(mask);
    }
    if whole as u64 == k && end < length {
        faults.push((10, 0));
    }
    masks
}

/// 11 with its position, as far as the plan's tables have masks.
fn ear(plan: &[u8], masks: &[u32]) -> Option<(u32, u32)> {
    let mut earlier: Vec<u32> = Vec::new();
    for (p, &table) in plan.iter().enumerate() {
        let &mask = masks.get(usize::from(table))?;
        let keys = mask & earlier.iter().fold(0, |all, m| all | m);
        if p > 0 && !earlier.iter().any(|m| keys & !m == 0) {
            return Some((11, p as u32));
        }
        earlier.push(mask);
    }
    None
}

fn number_at(file: &[u8], at: usize) -> u32 {
    u32::from_le_bytes(file[at..at + 4].try_into().unwrap())
}
