//! A plain reader of job files, document 01's refusals 1 to 11: what the peers
//! other than Korrigwen know of a file. It allocates nothing.

pub const MOST_TABLES: usize = 8;
const LEAST_FILE: usize = 12;
const MOST_FILE: usize = 65_535;
const ENTRY_BYTES: usize = 16;
const MOST_COLUMNS: u32 = 16;
const MOST_ROWS: u32 = 4_096;

#[derive(Clone, Copy, Debug, PartialEq, Eq)]
pub struct Refusal {
    pub number: u32,
    pub place: usize,
}

#[derive(Clone, Copy, Debug, Default, PartialEq, Eq)]
pub struct Entry {
    pub fields: u32,
    pub rows: u32,
    pub mask: u32,
    pub offset: u32,
}

/// An accepted job: entries in contents order, parents in plan order; the
/// root's parent and all places from k on are 0.
#[derive(Clone, Copy, Debug, PartialEq, Eq)]
pub struct Job {
    pub k: usize,
    pub plan: [u8; MOST_TABLES],
    pub entries: [Entry; MOST_TABLES],
    pub parents: [usize; MOST_TABLES],
}

impl Job {
    /// The entry of the table at a plan position.
    pub fn entry_at(&self, position: usize) -> &Entry {
        &self.entries[usize::from(self.plan[position])]
    }

    pub fn total_rows(&self) -> usize {
        self.entries.iter().map(|entry| entry.rows as usize).sum()
    }

    /// The columns that a position shares with its parent: its keys.
    pub fn key_columns(&self, position: usize) -> impl Iterator<Item = u32> {
        let keys = match position {
            0 => 0,
            _ => self.entry_at(position).mask & self.entry_at(self.parents[position]).mask,
        };
        columns(keys)
    }
}

/// The columns of a mask, ascending.
pub fn columns(mask: u32) -> impl Iterator<Item = u32> {
    (0..u32::BITS).filter(move |column| mask >> column & 1 == 1)
}

/// The place of a column's value in a row of a table with this mask.
pub fn place_in_row(mask: u32, column: u32) -> usize {
    (mask & ((1 << column) - 1)).count_ones() as usize
}

pub fn read(file: &[u8]) -> Result<Job, Refusal> {
    if file.len() < LEAST_FILE || file.len() > MOST_FILE {
        return refuse(1, 0);
    }
    let k = number_at(file, 0) as usize;
    if k == 0 || k > MOST_TABLES {
        return refuse(2, 0);
    }
    if file.len() < LEAST_FILE + ENTRY_BYTES * k {
        return refuse(3, 0);
    }
    let mut job = Job {
        k,
        plan: read_plan(file, k)?,
        entries: [Entry::default(); MOST_TABLES],
        parents: [0; MOST_TABLES],
    };
    read_entries(file, &mut job.entries[..k])?;
    find_parents(&mut job)?;
    Ok(job)
}

fn refuse<T>(number: u32, place: usize) -> Result<T, Refusal> {
    Err(Refusal { number, place })
}

/// The little-endian number that stands at a byte.
pub fn number_at(bytes: &[u8], at: usize) -> u32 {
    u32::from_le_bytes(bytes[at..at + 4].try_into().expect("four bytes"))
}

fn read_plan(file: &[u8], k: usize) -> Result<[u8; MOST_TABLES], Refusal> {
    let mut plan = [0; MOST_TABLES];
    plan.copy_from_slice(&file[4..LEAST_FILE]);
    let mut seen = 0_u8;
    for (position, &byte) in plan[..k].iter().enumerate() {
        if usize::from(byte) >= k || seen & (1 << byte) != 0 {
            return refuse(4, position);
        }
        seen |= 1 << byte;
    }
    match plan[k..].iter().position(|&byte| byte != 0) {
        Some(after) => refuse(4, k + after),
        None => Ok(plan),
    }
}

fn read_entries(file: &[u8], entries: &mut [Entry]) -> Result<(), Refusal> {
    let mut end = LEAST_FILE + ENTRY_BYTES * entries.len();
    let contents = file[LEAST_FILE..end].chunks_exact(ENTRY_BYTES);
    for (place, (entry, bytes)) in entries.iter_mut().zip(contents).enumerate() {
        *entry = Entry {
            fields: number_at(bytes, 0),
            rows: number_at(bytes, 4),
            mask: number_at(bytes, 8),
            offset: number_at(bytes, 12),
        };
        let ones = entry.mask.count_ones();
        if ones == 0 || ones > MOST_COLUMNS {
            return refuse(5, place);
        }
        if entry.fields != ones {
            return refuse(6, place);
        }
        if entry.rows > MOST_ROWS {
            return refuse(7, place);
        }
        if entry.offset as usize != end {
            return refuse(8, place);
        }
        end += 4 * (ones * entry.rows) as usize;
        if end > file.len() {
            return refuse(9, place);
        }
    }
    if end < file.len() {
        return refuse(10, 0);
    }
    Ok(())
}

fn find_parents(job: &mut Job) -> Result<(), Refusal> {
    let masks = job.plan.map(|table| job.entries[usize::from(table)].mask);
    let mut earlier = masks[0];
    for position in 1..job.k {
        let keys = masks[position] & earlier;
        let parent = masks[..position].iter().position(|mask| keys & !mask == 0);
        job.parents[position] = match parent {
            Some(parent) => parent,
            None => return refuse(11, position),
        };
        earlier |= masks[position];
    }
    Ok(())
}
