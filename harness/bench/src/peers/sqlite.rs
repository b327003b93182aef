//! SQLite in memory. Its tables are created and filled and its statement is
//! prepared before the clock starts; it makes its own plan, and no index but
//! those that it makes itself while it runs. Timed: stepping through all rows
//! and reading all their columns.

use std::ffi::{c_char, c_int, c_void, CStr, CString};
use std::hint::black_box;
use std::ptr;

use super::{Counts, Input, Peer, Records};
use crate::job::columns;
use crate::tables::{all_columns, Table};

#[repr(C)]
struct Database {
    _private: [u8; 0],
}

#[repr(C)]
struct Statement {
    _private: [u8; 0],
}

extern "C" {
    fn sqlite3_libversion() -> *const c_char;
    fn sqlite3_open_v2(
        name: *const c_char,
        database: *mut *mut Database,
        flags: c_int,
        system: *const c_char,
    ) -> c_int;
    fn sqlite3_close(database: *mut Database) -> c_int;
    fn sqlite3_exec(
        database: *mut Database,
        sql: *const c_char,
        each_row: *const c_void,
        context: *mut c_void,
        message: *mut *mut c_char,
    ) -> c_int;
    fn sqlite3_prepare_v2(
        database: *mut Database,
        sql: *const c_char,
        length: c_int,
        statement: *mut *mut Statement,
        rest: *mut *const c_char,
    ) -> c_int;
    fn sqlite3_bind_int(statement: *mut Statement, place: c_int, value: c_int) -> c_int;
    fn sqlite3_step(statement: *mut Statement) -> c_int;
    fn sqlite3_reset(statement: *mut Statement) -> c_int;
    fn sqlite3_finalize(statement: *mut Statement) -> c_int;
    fn sqlite3_column_int(statement: *mut Statement, place: c_int) -> c_int;
    fn sqlite3_stmt_status(statement: *mut Statement, what: c_int, reset: c_int) -> c_int;
}

const OK: c_int = 0;
const ROW: c_int = 100;
const DONE: c_int = 101;
const READ_WRITE_IN_MEMORY_NO_MUTEX: c_int = 0x2 | 0x4 | 0x80 | 0x8000;
const STATUS_VM_STEP: c_int = 4;

pub fn version() -> String {
    // SAFETY: it hands out a constant text.
    let version = unsafe { CStr::from_ptr(sqlite3_libversion()) };
    version.to_string_lossy().into_owned()
}

pub struct Sqlite {
    query: Prepared,
    columns: usize,
    last_records: u64,
    /// Dropped last: it cannot be closed while a statement is open.
    _database: Open,
}

impl Sqlite {
    pub fn new(input: &Input) -> Sqlite {
        let database = Open::in_memory();
        database.execute("BEGIN");
        for (at, table) in input.tables.iter().enumerate() {
            database.fill(at, table);
        }
        database.execute("COMMIT");
        Sqlite {
            query: database.prepare(&query(&input.tables)),
            columns: all_columns(&input.tables).count_ones() as usize,
            last_records: 0,
            _database: database,
        }
    }
}

/// The natural join, tables in plan order; SQLite may take them in another.
fn query(tables: &[Table]) -> String {
    let names: Vec<String> = (0..tables.len()).map(|at| format!("t{at}")).collect();
    format!(
        "SELECT {} FROM {}",
        column_names(all_columns(tables)),
        names.join(" NATURAL JOIN ")
    )
}

fn column_names(mask: u32) -> String {
    let names: Vec<String> = columns(mask).map(|column| format!("c{column}")).collect();
    names.join(", ")
}

impl Peer for Sqlite {
    fn run(&mut self) -> Counts {
        self.last_records = 0;
        while self.query.step() {
            for place in 0..self.columns {
                black_box(self.query.value(place));
            }
            self.last_records += 1;
        }
        self.query.reset();
        Counts {
            records: self.last_records,
            machine_steps: Some(self.query.machine_steps()),
            ..Counts::default()
        }
    }

    fn records(&mut self) -> Records<'_> {
        let mut rows = Vec::new();
        // A run that gave nothing may have taken long; it is not repeated.
        while self.last_records > 0 && self.query.step() {
            rows.push(
                (0..self.columns)
                    .map(|place| self.query.value(place))
                    .collect(),
            );
        }
        self.query.reset();
        Records::Values(rows)
    }
}

/// An open database.
struct Open(*mut Database);

impl Open {
    fn in_memory() -> Open {
        let mut database = ptr::null_mut();
        // SAFETY: the name ends in a zero, and the handle is written before it is used.
        let answer = unsafe {
            let flags = READ_WRITE_IN_MEMORY_NO_MUTEX;
            sqlite3_open_v2(c":memory:".as_ptr(), &mut database, flags, ptr::null())
        };
        assert_eq!(answer, OK, "SQLite opens a database in memory");
        Open(database)
    }

    fn execute(&self, sql: &str) {
        let text = CString::new(sql).expect("no zero in SQL");
        // SAFETY: the database is open; null stands for what is not wanted.
        let answer = unsafe {
            let nothing = ptr::null_mut();
            sqlite3_exec(self.0, text.as_ptr(), ptr::null(), nothing, ptr::null_mut())
        };
        assert_eq!(answer, OK, "SQLite takes: {sql}");
    }

    fn prepare(&self, sql: &str) -> Prepared {
        let text = CString::new(sql).expect("no zero in SQL");
        let mut statement = ptr::null_mut();
        // SAFETY: the database is open; -1 says that the text ends in a zero.
        let answer = unsafe {
            sqlite3_prepare_v2(self.0, text.as_ptr(), -1, &mut statement, ptr::null_mut())
        };
        assert_eq!(answer, OK, "SQLite takes: {sql}");
        Prepared(statement)
    }

    /// Creates table `t<at>` with the decoded table's rows.
    fn fill(&self, at: usize, table: &Table) {
        let names: Vec<String> = columns(table.mask)
            .map(|c| format!("c{c} INTEGER"))
            .collect();
        self.execute(&format!("CREATE TABLE t{at} ({})", names.join(", ")));
        let places = vec!["?"; names.len()].join(", ");
        let insert = self.prepare(&format!("INSERT INTO t{at} VALUES ({places})"));
        for row in 0..table.rows as u32 {
            for (place, &value) in table.row(row).iter().enumerate() {
                insert.bind(place, value);
            }
            assert!(!insert.step(), "inserting gives no rows");
            insert.reset();
        }
    }
}

impl Drop for Open {
    fn drop(&mut self) {
        // SAFETY: it is open, and its statements were finalized before.
        unsafe { sqlite3_close(self.0) };
    }
}

/// A prepared statement.
struct Prepared(*mut Statement);

impl Prepared {
    /// Whether there is one more row.
    fn step(&self) -> bool {
        // SAFETY: the statement is prepared.
        let answer = unsafe { sqlite3_step(self.0) };
        assert!(answer == ROW || answer == DONE, "SQLite steps: {answer}");
        answer == ROW
    }

    fn reset(&self) {
        // SAFETY: the statement is prepared.
        unsafe { sqlite3_reset(self.0) };
    }

    /// How many instructions of SQLite's machine ran since this was last
    /// asked. It counts modulo 2 to the 32.
    fn machine_steps(&self) -> u64 {
        // SAFETY: the statement is prepared.
        let steps = unsafe { sqlite3_stmt_status(self.0, STATUS_VM_STEP, 1) };
        u64::from(steps as u32)
    }

    /// The value at a place of the row that was stepped to.
    fn value(&self, place: usize) -> i32 {
        // SAFETY: the statement is prepared; a place that is not there gives 0.
        unsafe { sqlite3_column_int(self.0, place as c_int) }
    }

    fn bind(&self, place: usize, value: i32) {
        // SAFETY: the statement is prepared; places count from 1.
        let answer = unsafe { sqlite3_bind_int(self.0, place as c_int + 1, value) };
        assert_eq!(answer, OK, "SQLite binds a value");
    }
}

impl Drop for Prepared {
    fn drop(&mut self) {
        // SAFETY: the statement is prepared and not used again.
        unsafe { sqlite3_finalize(self.0) };
    }
}
