//! Functions that build job files for tests.

/// Where an entry's numbers stand, counted from the entry's first byte.
pub const FIELDS: usize = 0;
pub const ROWS: usize = 4;
pub const MASK: usize = 8;
pub const OFFSET: usize = 12;

/// A table: its column mask and its rows, each row's values in ascending
/// column order.
#[derive(Clone, Debug)]
pub struct Table {
    pub mask: u32,
    pub rows: Vec<Vec<i32>>,
}

impl Table {
    pub fn new(mask: u32, rows: &[&[i32]]) -> Table {
        Table {
            mask,
            rows: rows.iter().map(|row| row.to_vec()).collect(),
        }
    }

    /// A table of so many rows whose values count up from 1.
    pub fn filled(mask: u32, rows: usize) -> Table {
        let mut values = 1..;
        let rows = (0..rows)
            .map(|_| values.by_ref().take(mask.count_ones() as usize).collect())
            .collect();
        Table { mask, rows }
    }

    /// The length of the table's body in bytes.
    pub fn body_len(&self) -> usize {
        4 * self.rows.len() * self.mask.count_ones() as usize
    }
}

/// The byte at which entry `i` begins.
pub fn entry_at(i: usize) -> usize {
    12 + 16 * i
}

/// Writes a job file: k is the number of tables, the plan's bytes (8 at most)
/// are filled up with zeros, field counts, row counts and offsets are worked
/// out from the tables. Nothing is checked, so that faulty plans, masks and
/// row counts can be written too.
pub fn job(plan: &[u8], tables: &[Table]) -> Vec<u8> {
    assert!(plan.len() <= 8, "the plan has room for 8 bytes");
    let mut file = Vec::new();
    file.extend((tables.len() as u32).to_le_bytes());
    file.extend(plan);
    file.resize(12, 0);

    let mut offset = entry_at(tables.len());
    for table in tables {
        let numbers = [
            table.mask.count_ones(),
            table.rows.len() as u32,
            table.mask,
            offset as u32,
        ];
        for number in numbers {
            file.extend(number.to_le_bytes());
        }
        offset += table.body_len();
    }

    for table in tables {
        for row in &table.rows {
            assert_eq!(
                row.len(),
                table.mask.count_ones() as usize,
                "one value per column"
            );
            for value in row {
                file.extend(value.to_le_bytes());
            }
        }
    }
    assert_eq!(file.len(), offset);
    file
}

/// Overwrites the four bytes from `at` on with `n`, little-endian.
pub fn set_u32(file: &mut [u8], at: usize, n: u32) {
    file[at..at + 4].copy_from_slice(&n.to_le_bytes());
}

/// The tables of document 01's job W.
pub fn tables_w() -> Vec<Table> {
    vec![
        Table::new(3, &[&[1, 10], &[2, 20]]),
        Table::new(6, &[&[10, 5], &[20, 6], &[20, 7]]),
        Table::new(4, &[&[6]]),
    ]
}

/// Document 01's job W, 104 bytes.
pub fn job_w() -> Vec<u8> {
    job(&[0, 1, 2], &tables_w())
}

/// The tables of document 01's job V (P3): columns i, x, y, j, k, l as 0 to 5.
pub fn tables_v() -> Vec<Table> {
    vec![
        Table::new(0b000011, &[&[1, 1], &[2, 1]]),
        Table::new(0b001110, &[&[1, 1, 1], &[1, 1, 2]]),
        Table::new(0b010100, &[&[1, 1], &[1, 2]]),
        Table::new(0b100100, &[&[0, 1], &[0, 2]]),
    ]
}

/// Document 01's job V, plan R S T U.
pub fn job_v() -> Vec<u8> {
    job(&[0, 1, 2, 3], &tables_v())
}

/// Document 01's P7: one table, mask 1, rows (7) (7).
pub fn job_p7() -> Vec<u8> {
    job(&[0], &[Table::new(1, &[&[7], &[7]])])
}

/// Document 01's P8: one empty table, 28 bytes.
pub fn job_p8() -> Vec<u8> {
    job(&[0], &[Table::new(1, &[])])
}

/// Document 01's P9: masks 1 and 2, rows 2 and 0, plan 0 1.
pub fn job_p9() -> Vec<u8> {
    job(&[0, 1], &[Table::filled(1, 2), Table::filled(2, 0)])
}

#[cfg(test)]
mod tests {
    use super::*;

    #[test]
    fn w_has_the_documents_bytes() {
        #[rustfmt::skip]
        let bytes: [u8; 104] = [
            3, 0, 0, 0,   0, 1, 2, 0, 0, 0, 0, 0,
            2, 0, 0, 0,   2, 0, 0, 0,   3, 0, 0, 0,   60, 0, 0, 0,
            2, 0, 0, 0,   3, 0, 0, 0,   6, 0, 0, 0,   76, 0, 0, 0,
            1, 0, 0, 0,   1, 0, 0, 0,   4, 0, 0, 0,   100, 0, 0, 0,
            1, 0, 0, 0,   10, 0, 0, 0,
            2, 0, 0, 0,   20, 0, 0, 0,
            10, 0, 0, 0,  5, 0, 0, 0,
            20, 0, 0, 0,  6, 0, 0, 0,
            20, 0, 0, 0,  7, 0, 0, 0,
            6, 0, 0, 0,
        ];
        assert_eq!(job_w(), bytes);
    }

    #[test]
    fn v_has_the_documents_tables() {
        #[rustfmt::skip]
        let numbers: [u32; 34] = [
            2, 2, 3, 76,   3, 2, 14, 92,   2, 2, 20, 116,   2, 2, 36, 132,
            1, 1,  2, 1,
            1, 1, 1,  1, 1, 2,
            1, 1,  1, 2,
            0, 1,  0, 2,
        ];
        let mut bytes = vec![4, 0, 0, 0, 0, 1, 2, 3, 0, 0, 0, 0];
        bytes.extend(numbers.iter().flat_map(|n| n.to_le_bytes()));
        assert_eq!(bytes.len(), 148);
        assert_eq!(job_v(), bytes);
    }

    #[test]
    fn negative_values_are_twos_complement() {
        let file = job(&[0], &[Table::new(1, &[&[-1], &[i32::MIN]])]);
        assert_eq!(file[28..], [255, 255, 255, 255, 0, 0, 0, 128]);
    }

    #[test]
    fn set_u32_is_little_endian() {
        let mut file = vec![9; 6];
        set_u32(&mut file, 1, 0x0403_0201);
        assert_eq!(file, [9, 1, 2, 3, 4, 9]);
    }
}
