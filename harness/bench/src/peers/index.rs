//! A hash table from the keys of a plan position to its rows. The rows of a
//! bucket form a list in ascending order, so that peers give records in
//! Korrigwen's order, and a row is taken out of it in constant time.

use std::collections::HashMap;
use std::hash::{BuildHasherDefault, Hash, Hasher};

use crate::tables::Table;

/// No row: the end of a bucket.
pub const NONE: u32 = u32::MAX;

type Map<K> = HashMap<K, u32, BuildHasherDefault<Quick>>;

/// One or two key values are packed exactly into a number; longer keys are
/// kept as they are.
enum Buckets {
    Whole,
    One(Map<i32>),
    Two(Map<u64>),
    Many(Map<Vec<i32>>),
}

pub struct Index {
    buckets: Buckets,
    heads: Vec<u32>,
    next: Vec<u32>,
}

impl Index {
    /// Enters the given rows, which come in descending order.
    pub fn build(table: &Table, rows: impl Iterator<Item = u32>) -> Index {
        let mut lists = Lists {
            heads: Vec::new(),
            next: vec![NONE; table.rows],
        };
        let buckets = match table.keys[..] {
            [] => {
                lists.heads.push(NONE);
                rows.for_each(|row| lists.put_first(0, row));
                Buckets::Whole
            }
            [a] => Buckets::One(lists.enter(rows, |row| table.row(row)[a.here])),
            [a, b] => Buckets::Two(lists.enter(rows, |row| {
                let row = table.row(row);
                pair(row[a.here], row[b.here])
            })),
            _ => Buckets::Many(lists.enter(rows, |row| {
                let row = table.row(row);
                table.keys.iter().map(|key| row[key.here]).collect()
            })),
        };
        let Lists { heads, next } = lists;
        Index {
            buckets,
            heads,
            next,
        }
    }

    /// The bucket of the rows that agree with the parent's row, if any was
    /// ever entered; it may be empty by now.
    pub fn bucket(&self, table: &Table, parents_row: &[i32]) -> Option<u32> {
        match (&self.buckets, &table.keys[..]) {
            (Buckets::One(map), [a]) => map.get(&parents_row[a.parent]).copied(),
            (Buckets::Two(map), [a, b]) => {
                let key = pair(parents_row[a.parent], parents_row[b.parent]);
                map.get(&key).copied()
            }
            (Buckets::Many(map), keys) => {
                let key: Vec<i32> = keys.iter().map(|key| parents_row[key.parent]).collect();
                map.get(&key).copied()
            }
            _ => Some(0),
        }
    }

    /// The first row of a bucket, or `NONE`.
    pub fn first(&self, bucket: u32) -> u32 {
        self.heads[bucket as usize]
    }

    /// The first row that agrees with the parent's row, or `NONE`.
    pub fn first_agreeing(&self, table: &Table, parents_row: &[i32]) -> u32 {
        self.bucket(table, parents_row)
            .map_or(NONE, |bucket| self.first(bucket))
    }

    /// The row after this one in its bucket, or `NONE`.
    pub fn next(&self, row: u32) -> u32 {
        self.next[row as usize]
    }

    /// Takes a row out of its bucket; `before` is the one before it, or `NONE`.
    pub fn delete(&mut self, bucket: u32, before: u32, row: u32) {
        let next = self.next[row as usize];
        match before {
            NONE => self.heads[bucket as usize] = next,
            _ => self.next[before as usize] = next,
        }
    }
}

struct Lists {
    heads: Vec<u32>,
    next: Vec<u32>,
}

impl Lists {
    fn put_first(&mut self, bucket: u32, row: u32) {
        let head = &mut self.heads[bucket as usize];
        self.next[row as usize] = *head;
        *head = row;
    }

    fn enter<K: Eq + Hash>(
        &mut self,
        rows: impl Iterator<Item = u32>,
        key: impl Fn(u32) -> K,
    ) -> Map<K> {
        let mut map = Map::with_capacity_and_hasher(self.next.len(), Default::default());
        for row in rows {
            let bucket = *map.entry(key(row)).or_insert_with(|| {
                self.heads.push(NONE);
                self.heads.len() as u32 - 1
            });
            self.put_first(bucket, row);
        }
        map
    }
}

fn pair(a: i32, b: i32) -> u64 {
    u64::from(a as u32) << 32 | u64::from(b as u32)
}

/// A hash that is quick on numbers: multiply and rotate. The standard one
/// guards against chosen keys, which would cost the peers time for nothing.
#[derive(Default)]
struct Quick(u64);

impl Quick {
    fn mix(&mut self, number: u64) {
        self.0 = self
            .0
            .wrapping_add(number)
            .wrapping_mul(0xf135_7aea_2e62_a9c5);
    }
}

impl Hasher for Quick {
    fn write(&mut self, bytes: &[u8]) {
        for chunk in bytes.chunks(4) {
            let mut number = [0; 4];
            number[..chunk.len()].copy_from_slice(chunk);
            self.mix(u32::from_le_bytes(number).into());
        }
    }

    fn write_i32(&mut self, number: i32) {
        self.mix((number as u32).into());
    }

    fn write_u64(&mut self, number: u64) {
        self.mix(number);
    }

    fn write_usize(&mut self, number: usize) {
        self.mix(number as u64);
    }

    /// The map takes its place from the low bits, and the high ones are mixed
    /// best.
    fn finish(&self) -> u64 {
        self.0.rotate_left(26)
    }
}
