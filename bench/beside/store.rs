//! The plain judge's file: the stock SQLite by its C interface, each letter one transaction. What is kept is asked for nowhere: it is in memory too.
use std::ffi::{CString, c_char, c_int, c_void};
use std::ptr;

#[link(name = "sqlite3")]
unsafe extern "C" {
    fn sqlite3_open(path: *const c_char, db: *mut *mut c_void) -> c_int;
    fn sqlite3_exec(db: *mut c_void, text: *const c_char, call: *const c_void, to: *mut c_void, fault: *mut *mut c_char) -> c_int;
    fn sqlite3_prepare_v2(db: *mut c_void, text: *const c_char, size: c_int, made: *mut *mut c_void, tail: *mut *const c_char) -> c_int;
    fn sqlite3_bind_text(made: *mut c_void, at: c_int, text: *const u8, size: c_int, free: isize) -> c_int;
    fn sqlite3_bind_blob(made: *mut c_void, at: c_int, bytes: *const u8, size: c_int, free: isize) -> c_int;
    fn sqlite3_bind_int64(made: *mut c_void, at: c_int, number: i64) -> c_int;
    fn sqlite3_step(made: *mut c_void) -> c_int;
    fn sqlite3_reset(made: *mut c_void) -> c_int;
}

const TABLES: &str = "PRAGMA locking_mode=EXCLUSIVE; PRAGMA journal_mode=WAL; PRAGMA synchronous=FULL;
CREATE TABLE game (name TEXT PRIMARY KEY, due INTEGER NOT NULL, period INTEGER NOT NULL, grey INTEGER NOT NULL);
CREATE TABLE seat (game TEXT NOT NULL, power TEXT NOT NULL, digest BLOB NOT NULL, vote TEXT NOT NULL, last INTEGER NOT NULL, kept BLOB NOT NULL,
    reply TEXT NOT NULL, sent INTEGER NOT NULL, items INTEGER NOT NULL, PRIMARY KEY (game, power));
CREATE TABLE unit (game TEXT NOT NULL, province TEXT NOT NULL, power TEXT NOT NULL, kind TEXT NOT NULL, coast TEXT NOT NULL, PRIMARY KEY (game, province));
CREATE TABLE centre (game TEXT NOT NULL, province TEXT NOT NULL, power TEXT NOT NULL, PRIMARY KEY (game, province));
CREATE TABLE pending (game TEXT NOT NULL, power TEXT NOT NULL, province TEXT NOT NULL, line TEXT NOT NULL, PRIMARY KEY (game, power, province));
CREATE TABLE desk (id INTEGER PRIMARY KEY, last INTEGER NOT NULL, kept BLOB NOT NULL, reply TEXT NOT NULL);
INSERT INTO desk VALUES (1, 0, x'', '');";

pub enum Value<'a> {
    Int(i64),
    Text(&'a str),
    Bytes(&'a [u8]),
}

/// The statements that are made once.
#[derive(Clone, Copy)]
pub enum Does {
    Begin,
    Commit,
    AddGame,
    AddSeat,
    AddUnit,
    AddCentre,
    NoteDesk,
    NoteSeat,
    DropOrders,
    AddOrder,
}

const TEXTS: [&str; 10] = [
    "BEGIN IMMEDIATE",
    "COMMIT",
    "INSERT INTO game VALUES (?1, ?2, ?3, ?4)",
    "INSERT INTO seat VALUES (?1, ?2, ?3, 'NO', 0, x'', '', 0, 0)",
    "INSERT INTO unit VALUES (?1, ?2, ?3, ?4, ?5)",
    "INSERT INTO centre VALUES (?1, ?2, ?3)",
    "UPDATE desk SET last = ?1, kept = ?2, reply = ?3 WHERE id = 1",
    "UPDATE seat SET vote = ?3, last = ?4, kept = ?5, reply = ?6, sent = ?7, items = ?8 WHERE game = ?1 AND power = ?2",
    "DELETE FROM pending WHERE game = ?1 AND power = ?2",
    "INSERT INTO pending VALUES (?1, ?2, ?3, ?4)",
];

pub struct Store {
    made: Vec<*mut c_void>,
}

impl Store {
    /// A new file with empty tables.
    pub fn new(path: &str) -> Store {
        let (mut db, path) = (ptr::null_mut(), CString::new(path).unwrap());
        let tables = CString::new(TABLES).unwrap();
        unsafe {
            assert_eq!(sqlite3_open(path.as_ptr(), &mut db), 0);
            assert_eq!(sqlite3_exec(db, tables.as_ptr(), ptr::null(), ptr::null_mut(), ptr::null_mut()), 0);
        }
        let make = |text: &&str| {
            let (mut made, text) = (ptr::null_mut(), CString::new(*text).unwrap());
            unsafe { assert_eq!(sqlite3_prepare_v2(db, text.as_ptr(), -1, &mut made, ptr::null_mut()), 0) };
            made
        };
        Store { made: TEXTS.iter().map(make).collect() }
    }

    pub fn run(&self, what: Does, values: &[Value]) {
        let made = self.made[what as usize];
        for (at, value) in values.iter().enumerate() {
            let at = at as c_int + 1;
            unsafe {
                match value {
                    Value::Int(number) => sqlite3_bind_int64(made, at, *number),
                    Value::Text(text) => sqlite3_bind_text(made, at, text.as_ptr(), text.len() as c_int, 0),
                    Value::Bytes(bytes) => sqlite3_bind_blob(made, at, bytes.as_ptr(), bytes.len() as c_int, 0),
                };
            }
        }
        unsafe {
            assert_eq!(sqlite3_step(made), 101, "a statement failed");
            sqlite3_reset(made);
        }
    }
}
