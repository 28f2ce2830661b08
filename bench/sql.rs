//! The yardstick of the store of SQL: orders and despatch advices over the system's SQLite, as a plain Rust program with
//! its statements prepared once. It plays the scripts of sql.py over a file: it reads and checks the messages,
//! keeps the same rows in the same tables, commits each message alone, and writes the same replies. The log is SQLite's
//! own (WAL), and each commit is synced (synchronous FULL). What is refused ends it, as none of these loads has it.
#[allow(dead_code)]
#[path = "hub.rs"]
mod hub;

pub use hub::plain::shared;
use hub::plain::{Message, write_segment};
use hub::{Gln, header, line_groups, next_line, suppliers_of, uploaded, valid_digits};
use std::ffi::{CStr, CString, c_char, c_int, c_void};
use std::io::{Read, Write};
use std::ptr::{null, null_mut};

#[link(name = "sqlite3")]
unsafe extern "C" {
    fn sqlite3_open_v2(path: *const c_char, db: *mut *mut c_void, flags: c_int, system: *const c_char) -> c_int;
    fn sqlite3_exec(db: *mut c_void, sql: *const c_char, call: *mut c_void, to: *mut c_void, error: *mut *mut c_char) -> c_int;
    fn sqlite3_prepare_v2(db: *mut c_void, sql: *const c_char, length: c_int, it: *mut *mut c_void, rest: *mut *const c_char) -> c_int;
    fn sqlite3_bind_blob(it: *mut c_void, at: c_int, bytes: *const u8, length: c_int, free: *const c_void) -> c_int;
    fn sqlite3_bind_int64(it: *mut c_void, at: c_int, number: i64) -> c_int;
    fn sqlite3_step(it: *mut c_void) -> c_int;
    fn sqlite3_reset(it: *mut c_void) -> c_int;
    fn sqlite3_column_blob(it: *mut c_void, at: c_int) -> *const u8;
    fn sqlite3_column_bytes(it: *mut c_void, at: c_int) -> c_int;
    fn sqlite3_column_int64(it: *mut c_void, at: c_int) -> i64;
    fn sqlite3_close_v2(db: *mut c_void) -> c_int;
}

const ROW: c_int = 100;
const DONE: c_int = 101;
/// To read and write, to make it where it is not there, and without a lock for each call, since there is one thread alone.
const OPEN: c_int = 0x2 | 0x4 | 0x8000;

#[derive(Clone, Copy)]
pub enum Value<'a> {
    Bytes(&'a [u8]),
    Number(u64),
}
pub use Value::{Bytes, Number};

pub struct Statement(*mut c_void);

impl Statement {
    fn of(db: *mut c_void, text: &str) -> Statement {
        let (mut it, text) = (null_mut(), CString::new(text).unwrap());
        assert!(unsafe { sqlite3_prepare_v2(db, text.as_ptr(), -1, &mut it, null_mut()) } == 0);
        Statement(it)
    }

    /// Runs it; `row` gets each row.
    pub fn run(&self, values: &[Value], mut row: impl FnMut(&Self)) {
        for (place, value) in values.iter().enumerate() {
            let at = place as c_int + 1;
            let bound = match value {
                Bytes(bytes) => unsafe { sqlite3_bind_blob(self.0, at, bytes.as_ptr(), bytes.len() as c_int, null_mut()) },
                Number(number) => unsafe { sqlite3_bind_int64(self.0, at, *number as i64) },
            };
            assert!(bound == 0);
        }
        loop {
            match unsafe { sqlite3_step(self.0) } {
                ROW => row(self),
                DONE => break,
                other => panic!("{other}"),
            }
        }
        unsafe { sqlite3_reset(self.0) };
    }

    /// The bytes of a column, until the next row.
    pub fn lent(&self, at: c_int) -> &[u8] {
        let bytes = unsafe { sqlite3_column_blob(self.0, at) };
        // no bytes are no pointer
        if bytes.is_null() {
            return &[];
        }
        unsafe { std::slice::from_raw_parts(bytes, sqlite3_column_bytes(self.0, at) as usize) }
    }

    pub fn bytes(&self, at: c_int) -> Vec<u8> {
        self.lent(at).to_vec()
    }

    pub fn number(&self, at: c_int) -> u64 {
        unsafe { sqlite3_column_int64(self.0, at) as u64 }
    }

    fn has_row(&self, values: &[Value]) -> bool {
        let mut found = false;
        self.run(values, |_| found = true);
        found
    }
}

pub struct Hub {
    db: *mut c_void,
    suppliers: Vec<Gln>,
    begin: Statement,
    commit: Statement,
    recall: Statement,
    remember: Statement,
    has_order: Statement,
    add_order: Statement,
    lines: Statement,
    add_line: Statement,
    set_line: Statement,
    has_advice: Statement,
    add_advice: Statement,
    has_pallet: Statement,
    add_pallet: Statement,
    add_content: Statement,
    last_mail: Statement,
    add_mail: Statement,
}

const TABLES: &str = include_str!("tables.sql");

impl Hub {
    pub fn over(path: &str, suppliers: Vec<Gln>) -> Hub {
        let (mut db, path) = (null_mut(), CString::new(path).unwrap());
        assert!(unsafe { sqlite3_open_v2(path.as_ptr(), &mut db, OPEN, null()) } == 0);
        let exec = |text: &CStr| assert!(unsafe { sqlite3_exec(db, text.as_ptr(), null_mut(), null_mut(), null_mut()) } == 0);
        exec(c"PRAGMA journal_mode = WAL");
        exec(c"PRAGMA synchronous = FULL");
        exec(&CString::new(TABLES).unwrap());
        let of = |text: &str| Statement::of(db, text);
        Hub {
            db,
            suppliers,
            begin: of("BEGIN"),
            commit: of("COMMIT"),
            recall: of("SELECT content FROM remembered WHERE supplier = ?1 AND side = ?2 AND control = ?3 AND message = ?4"),
            remember: of("INSERT INTO remembered VALUES (?1, ?2, ?3, ?4, ?5)"),
            has_order: of("SELECT 1 FROM \"order\" WHERE supplier = ?1 AND number = ?2"),
            add_order: of("INSERT INTO \"order\" VALUES (?1, ?2)"),
            lines: of("SELECT * FROM line WHERE supplier = ?1 AND number = ?2 ORDER BY line"),
            add_line: of("INSERT INTO line VALUES (?1, ?2, ?3, ?4, ?5, ?5, 0, 0, 87)"),
            set_line: of("UPDATE line SET open_qty = ?4 WHERE supplier = ?1 AND number = ?2 AND line = ?3"),
            has_advice: of("SELECT 1 FROM advice WHERE supplier = ?1 AND number = ?2"),
            add_advice: of("INSERT INTO advice VALUES (?1, ?2)"),
            has_pallet: of("SELECT 1 FROM pallet WHERE sscc = ?1"),
            add_pallet: of("INSERT INTO pallet VALUES (?1, ?2, ?3, 0)"),
            add_content: of("INSERT INTO content VALUES (?1, ?2, ?3, ?4, ?5)"),
            last_mail: of("SELECT number FROM mail WHERE supplier = ?1 ORDER BY number DESC LIMIT 1"),
            add_mail: of("INSERT INTO mail VALUES (?1, ?2, 1748942400, 46, 79, ?3, ?4, 0)"),
        }
    }

    /// Does this in one transaction.
    pub fn in_one(&self, act: impl FnOnce()) {
        self.begin.run(&[], |_| ());
        act();
        self.commit.run(&[], |_| ());
    }

    pub fn prepared(&self, text: &str) -> Statement {
        Statement::of(self.db, text)
    }

    /// The content, where it is not remembered.
    fn new_content(&self, supplier: &Gln, side: u8, control: &[u8], message: &Message) -> Option<Vec<u8>> {
        let mut content = Vec::new();
        message.segments.iter().for_each(|s| write_segment(&mut content, s));
        let mut before = None;
        let key = [Bytes(supplier), Number(side as u64), Bytes(control), Bytes(&message.reference)];
        self.recall.run(&key, |row| before = Some(row.bytes(0)));
        assert!(before.as_ref().is_none_or(|it| *it == content));
        before.is_none().then_some(content)
    }

    fn keep(&self, supplier: &Gln, side: u8, control: &[u8], reference: &[u8], content: &[u8]) {
        let row = [Bytes(supplier), Number(side as u64), Bytes(control), Bytes(reference), Bytes(content)];
        self.remember.run(&row, |_| ());
    }

    fn order(&self, control: &[u8], mut message: Message) -> bool {
        let (document, supplier, _, end) = header(&message, b"220");
        let groups = line_groups(&message.segments[end..], b"21");
        assert!(self.suppliers.contains(&supplier));
        let Some(content) = self.new_content(&supplier, b'R', control, &message) else {
            return false;
        };
        assert!(!self.has_order.has_row(&[Bytes(&supplier), Bytes(&document)]));
        let mut last = 0;
        self.last_mail.run(&[Bytes(&supplier)], |row| last = row.number(0));
        self.begin.run(&[], |_| ());
        self.keep(&supplier, b'R', control, &message.reference, &content);
        self.add_order.run(&[Bytes(&supplier), Bytes(&document)], |_| ());
        for (line, gtin, ordered) in groups {
            let row = [Bytes(&supplier), Bytes(&document), Number(line as u64), Bytes(&gtin), Number(ordered as u64)];
            self.add_line.run(&row, |_| ());
        }
        let end = message.segments.len() - 1;
        message.segments[0].elements[0][0] = b"1".to_vec();
        message.segments[end].elements[1][0] = b"1".to_vec();
        let mut body = Vec::new();
        message.segments.iter().for_each(|s| write_segment(&mut body, s));
        self.add_mail.run(&[Bytes(&supplier), Number(last + 1), Bytes(&document), Bytes(&body)], |_| ());
        self.commit.run(&[], |_| ());
        true
    }

    fn despatch(&self, control: &[u8], message: &Message) -> bool {
        let (document, supplier, order, end) = header(message, b"351");
        let Some(content) = self.new_content(&supplier, b'S', control, message) else {
            return false;
        };
        assert!(!self.has_advice.has_row(&[Bytes(&supplier), Bytes(&document)]));
        let mut rows = Vec::new();
        self.lines.run(&[Bytes(&supplier), Bytes(&order)], |row| rows.push((row.number(2), row.bytes(3), row.number(5))));
        let mut units = Vec::new();
        for unit in message.segments[end..].split(|s| s.tag == *b"CPS").skip(1) {
            let sscc = valid_digits::<18>(unit.iter().find(|s| s.tag == *b"GIN").unwrap().component(1, 0));
            assert!(!self.has_pallet.has_row(&[Bytes(&sscc)]));
            let mut contents = Vec::new();
            for (_, gtin, quantity) in line_groups(unit, b"12") {
                let mut found = rows.iter_mut().filter(|row| row.1 == gtin);
                let row = found.next().unwrap();
                assert!(found.next().is_none() && row.2 >= quantity as u64);
                row.2 -= quantity as u64;
                contents.push((row.0, row.2, quantity));
            }
            units.push((sscc, contents));
        }
        self.begin.run(&[], |_| ());
        self.keep(&supplier, b'S', control, &message.reference, &content);
        self.add_advice.run(&[Bytes(&supplier), Bytes(&document)], |_| ());
        for (sscc, contents) in units {
            self.add_pallet.run(&[Bytes(&sscc), Bytes(&supplier), Bytes(&document)], |_| ());
            for (place, (line, left, quantity)) in contents.into_iter().enumerate() {
                self.set_line.run(&[Bytes(&supplier), Bytes(&order), Number(line), Number(left)], |_| ());
                let row = [Bytes(&sscc), Number(place as u64 + 1), Bytes(&order), Number(line), Number(quantity as u64)];
                self.add_content.run(&row, |_| ());
            }
        }
        self.commit.run(&[], |_| ());
        true
    }

    pub fn upload(&self, text: &[u8]) -> Vec<u8> {
        uploaded(text, |control, message| {
            if message.kind == b"ORDERS" { self.order(control, message) } else { self.despatch(control, &message) }
        })
    }
}

fn main() {
    let path = std::env::args().nth(2).unwrap();
    let mut script = Vec::new();
    std::io::stdin().read_to_end(&mut script).unwrap();
    let (mut hub, mut rest, mut quiet): (Option<Hub>, _, _) = (None, script.as_slice(), false);
    let mut out = std::io::stdout();
    while !rest.is_empty() {
        let (words, payload) = next_line(&mut rest);
        match words[0] {
            "hub" => {
                hub = Some(Hub::over(&path, suppliers_of(std::str::from_utf8(payload).unwrap())));
            }
            // the list behind all entries of the first supplier
            "after" => {
                let (hub, mut last) = (hub.as_ref().unwrap(), 0);
                hub.last_mail.run(&[Bytes(&hub.suppliers[0])], |row| last = row.number(0));
                assert!(last <= words[1].parse().unwrap());
                out.write_all(b"done 4\nend\n").unwrap();
            }
            "quiet" => quiet = true,
            "loud" => quiet = false,
            "upload" => {
                let reply = hub.as_ref().unwrap().upload(payload);
                if !quiet {
                    writeln!(out, "done {}", reply.len()).unwrap();
                    out.write_all(&reply).unwrap();
                }
            }
            _ => {}
        }
    }
    if let Some(hub) = hub {
        // without a checkpoint, as the file's next opening is no part of the load
        unsafe { sqlite3_close_v2(hub.db) };
    }
}
