//! A reader of job files, written without a look at the crates' code. The checks stand in
//! the document's order; each names the sentence it follows. All arithmetic on
//! numbers from the file is 64-bit, so that nothing wraps.

use std::collections::BTreeSet;

/// "A refusal gives number and place only."
#[derive(Clone, Copy, Debug, PartialEq, Eq)]
pub struct Refusal {
    pub number: u32,
    pub place: u32,
}

/// "four unsigned 32-bit numbers each: field count, row count, column mask, body offset"
#[derive(Clone, Copy, Debug, PartialEq, Eq)]
pub struct Entry {
    pub fields: u32,
    pub rows: u32,
    pub mask: u32,
    pub offset: u32,
}

/// "k, the plan, each entry's four numbers and each position's parent".
/// `plan` has k bytes; `entries` is in contents order; `parents` goes by plan
/// position and has `None` for the root.
#[derive(Clone, Debug, PartialEq, Eq)]
pub struct Job {
    pub k: usize,
    pub plan: Vec<u8>,
    pub entries: Vec<Entry>,
    pub parents: Vec<Option<usize>>,
}

pub fn read(file: &[u8]) -> Result<Job, Refusal> {
    let length = file.len() as u64;

    // 1: "length under 12 or over 65,535"
    if length < 12 || length > 65_535 {
        return refuse(1, 0);
    }

    // 2: "k is 0 or over 8"
    let k = u64::from(number_at(file, 0));
    if k == 0 || k > 8 {
        return refuse(2, 0);
    }

    // 3: "length under 12 + 16 × k"
    if length < 12 + 16 * k {
        return refuse(3, 0);
    }
    let k = k as usize;

    // 4: "plan bytes break the rule above", at the "first faulty plan byte, 0 to 7"
    let plan_bytes = &file[4..12];
    let mut seen = BTreeSet::new();
    for (position, &byte) in plan_bytes.iter().enumerate() {
        let faulty = if position < k {
            // "a byte below position k is faulty if it is k or more or repeats an earlier byte"
            usize::from(byte) >= k || !seen.insert(byte)
        } else {
            // "a byte from position k on is faulty if it is not 0"
            byte != 0
        };
        if faulty {
            return refuse(4, position);
        }
    }
    let plan = plan_bytes[..k].to_vec();

    // "5 to 9 are tried for entry 0, then for entry 1, and so on"
    let mut entries = Vec::new();
    // "Each body offset is the end of what came before: 12 + 16 × k for the first."
    let mut running_end = 12 + 16 * k as u64;
    for place in 0..k {
        let at = 12 + 16 * place;
        let entry = Entry {
            fields: number_at(file, at),
            rows: number_at(file, at + 4),
            mask: number_at(file, at + 8),
            offset: number_at(file, at + 12),
        };

        // 5: "mask has no ones or more than 16"
        let ones = columns(entry.mask).len() as u64;
        if ones == 0 || ones > 16 {
            return refuse(5, place);
        }

        // 6: "field count differs from the ones in the mask"
        if u64::from(entry.fields) != ones {
            return refuse(6, place);
        }

        // 7: "row count over 4,096"
        if entry.rows > 4_096 {
            return refuse(7, place);
        }

        // 8: "offset is not the running end"
        if u64::from(entry.offset) != running_end {
            return refuse(8, place);
        }

        // 9: "body ends past the file"; "a row holds one value per column", four bytes each
        running_end += u64::from(entry.rows) * ones * 4;
        if running_end > length {
            return refuse(9, place);
        }

        entries.push(entry);
    }

    // 10: "bytes left after the last body"
    if running_end < length {
        return refuse(10, 0);
    }

    // 11: "plan fails the ear rule below", at the first position that lacks a parent
    let tables: Vec<BTreeSet<u32>> = plan
        .iter()
        .map(|&table| columns(entries[usize::from(table)].mask))
        .collect();
    let mut parents = Vec::new();
    for position in 0..k {
        // "position 0 is the root"; "Every position but the root needs one"
        if position == 0 {
            parents.push(None);
            continue;
        }
        let earlier = &tables[..position];
        // "its table's columns that also occur at some earlier position"
        let keys: BTreeSet<u32> = tables[position]
            .iter()
            .copied()
            .filter(|column| earlier.iter().any(|table| table.contains(column)))
            .collect();
        // "the first earlier position whose table has all the keys"
        match earlier.iter().position(|table| keys.is_subset(table)) {
            Some(parent) => parents.push(Some(parent)),
            None => return refuse(11, position),
        }
    }

    Ok(Job {
        k,
        plan,
        entries,
        parents,
    })
}

fn refuse(number: u32, place: usize) -> Result<Job, Refusal> {
    Err(Refusal {
        number,
        place: place as u32,
    })
}

/// "All numbers are little-endian."
fn number_at(file: &[u8], at: usize) -> u32 {
    u32::from_le_bytes([file[at], file[at + 1], file[at + 2], file[at + 3]])
}

/// "The mask has bit c set when the table has column c (0 to 31)."
fn columns(mask: u32) -> BTreeSet<u32> {
    (0..32).filter(|c| (mask >> c) & 1 == 1).collect()
}

#[cfg(test)]
mod tests {
    use super::*;
    use crate::build::{entry_at, job, job_v, job_w, set_u32, Table, FIELDS};

    fn refused(number: u32, place: u32) -> Result<Job, Refusal> {
        Err(Refusal { number, place })
    }

    fn one_row_each(masks: &[u32]) -> Vec<Table> {
        masks.iter().map(|&mask| Table::filled(mask, 1)).collect()
    }

    fn w_with_plan(plan: [u8; 3]) -> Vec<u8> {
        let mut file = job_w();
        file[4..7].copy_from_slice(&plan);
        file
    }

    #[test]
    fn p1_w_is_accepted() {
        let entry = |fields, rows, mask, offset| Entry {
            fields,
            rows,
            mask,
            offset,
        };
        assert_eq!(
            read(&job_w()),
            Ok(Job {
                k: 3,
                plan: vec![0, 1, 2],
                entries: vec![entry(2, 2, 3, 60), entry(2, 3, 6, 76), entry(1, 1, 4, 100)],
                parents: vec![None, Some(0), Some(1)],
            })
        );
    }

    #[test]
    fn p3_v_is_accepted() {
        let v = read(&job_v()).unwrap();
        assert_eq!(v.k, 4);
        assert_eq!(v.plan, [0, 1, 2, 3]);
        let masks: Vec<u32> = v.entries.iter().map(|e| e.mask).collect();
        let offsets: Vec<u32> = v.entries.iter().map(|e| e.offset).collect();
        assert_eq!(masks, [0b11, 0b1110, 0b10100, 0b100100]);
        assert_eq!(offsets, [76, 92, 116, 132]);
        assert_eq!(v.parents, [None, Some(0), Some(1), Some(1)]);
    }

    #[test]
    fn p4_great_field_count() {
        let mut file = job_w();
        set_u32(&mut file, entry_at(1) + FIELDS, 4_294_967_295);
        assert_eq!(read(&file), refused(6, 1));
    }

    #[test]
    fn p5_w_in_other_orders() {
        assert_eq!(read(&w_with_plan([0, 2, 1])), refused(11, 2));
        let other = read(&w_with_plan([1, 0, 2])).unwrap();
        assert_eq!(other.plan, [1, 0, 2]);
        assert_eq!(other.parents, [None, Some(0), Some(0)]);
    }

    #[test]
    fn p6_triangle() {
        let file = job(&[0, 1, 2], &one_row_each(&[3, 6, 5]));
        assert_eq!(read(&file), refused(11, 2));
    }

    #[test]
    fn p10_first_parent_not_nearest() {
        let file = job(&[0, 1, 2], &one_row_each(&[3, 1, 1]));
        assert_eq!(read(&file).unwrap().parents, [None, Some(0), Some(0)]);
    }

    #[test]
    fn p11_short_files() {
        assert_eq!(read(&[0; 11]), refused(1, 0));
        assert_eq!(read(&[0; 12]), refused(2, 0));
        let mut file = vec![0; 12];
        set_u32(&mut file, 0, 1);
        assert_eq!(read(&file), refused(3, 0));
    }

    #[test]
    fn limits_of_rows_and_columns() {
        let single = |mask, rows| read(&job(&[0], &[Table::filled(mask, rows)]));
        assert!(single(1, 4_096).is_ok());
        assert_eq!(single(1, 4_097), refused(7, 0));
        assert!(single(0xffff, 1).is_ok());
        assert_eq!(single(0x1_ffff, 1), refused(5, 0));
    }
}
