//! A job's tables, decoded: what the peers with hash tables and SQLite work on.
//! Decoding is done before the clock starts.

use crate::job::{columns, number_at, place_in_row, Job};

/// Where the two values of a key stand in their rows.
#[derive(Clone, Copy, Debug)]
pub struct Key {
    pub here: usize,
    pub parent: usize,
}

/// The table at a plan position. The root has no keys, and its parent is 0.
#[derive(Clone, Debug)]
pub struct Table {
    pub mask: u32,
    pub rows: usize,
    pub parent: usize,
    pub keys: Vec<Key>,
    width: usize,
    values: Vec<i32>,
}

impl Table {
    fn decode(file: &[u8], job: &Job, position: usize) -> Table {
        let entry = job.entry_at(position);
        let parent = job.parents[position];
        let width = entry.fields as usize;
        let rows = entry.rows as usize;
        let body = &file[entry.offset as usize..][..4 * width * rows];
        let key = |column| Key {
            here: place_in_row(entry.mask, column),
            parent: place_in_row(job.entry_at(parent).mask, column),
        };
        Table {
            mask: entry.mask,
            rows,
            parent,
            keys: job.key_columns(position).map(key).collect(),
            width,
            values: body.chunks(4).map(|b| number_at(b, 0) as i32).collect(),
        }
    }

    pub fn row(&self, row: u32) -> &[i32] {
        &self.values[row as usize * self.width..][..self.width]
    }
}

/// The tables of an accepted job, in plan order.
pub fn decode(file: &[u8], job: &Job) -> Vec<Table> {
    (0..job.k).map(|p| Table::decode(file, job, p)).collect()
}

/// The distinct columns of all tables, as a mask.
pub fn all_columns(tables: &[Table]) -> u32 {
    tables.iter().fold(0, |mask, table| mask | table.mask)
}

/// The joined values of a record, ascending by column.
pub fn joined_values(tables: &[Table], record: &[u32]) -> Vec<i32> {
    let value = |column| {
        let with_it = tables.iter().position(|t| t.mask >> column & 1 == 1);
        let position = with_it.expect("some table has the column");
        let table = &tables[position];
        table.row(record[position])[place_in_row(table.mask, column)]
    };
    columns(all_columns(tables)).map(value).collect()
}
