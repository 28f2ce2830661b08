//! The yardstick of `edihub serve`: the paths of a supplier and the retailer over HTTP, as a plain Rust program over the
//! system's SQLite with its statements prepared once. One connection after another, one request each; the same responses.
//! Rows are written as they are read, into fields of fixed width, without copies.
//!
//!     plain_server REGISTER DB PORT COUNT
#[allow(dead_code)]
#[path = "sql.rs"]
mod sql;

use sql::shared::clock;
use sql::{Bytes, Hub, Number, Statement};
use std::io::{Read, Write};
use std::net::{Shutdown, TcpListener, TcpStream};
use std::time::Duration;

struct Party {
    gln: String,
    key: String,
}

struct Server {
    hub_gln: String,
    parties: Vec<Party>,
    hub: Hub,
    list: Statement,
    item: Statement,
    take: Statement,
    lines: Statement,
    pallets: Statement,
    contents: Statement,
    receipts: Statement,
    line: Statement,
    cancel: Statement,
    recall: Statement,
    remember: Statement,
}

fn quoted(text: &str) -> Vec<String> {
    text.split('"').skip(1).step_by(2).map(String::from).collect()
}

/// An article on a pallet: what is despatched, accepted, returned and destroyed of it.
type Article = ([u8; 14], [u64; 4]);

fn gtin_of(row: &Statement, at: i32) -> [u8; 14] {
    row.lent(at).try_into().unwrap()
}

/// The lines of a supplier, as they were read: the orders, each with the place of its first line, and the number and the article of each
/// line.
#[derive(Default)]
struct Lines {
    orders: Vec<(Vec<u8>, usize)>,
    lines: Vec<(u64, [u8; 14])>,
}

impl Lines {
    fn push(&mut self, order: &[u8], line: u64, gtin: [u8; 14]) {
        if self.orders.last().is_none_or(|it| it.0 != order) {
            self.orders.push((order.to_vec(), self.lines.len()));
        }
        self.lines.push((line, gtin));
    }

    /// The article of a line.
    fn gtin(&self, order: &[u8], line: u64) -> [u8; 14] {
        let at = self.orders.binary_search_by(|it| it.0.as_slice().cmp(order)).unwrap();
        let end = self.orders.get(at + 1).map_or(self.lines.len(), |it| it.1);
        let lines = &self.lines[self.orders[at].1..end];
        lines[lines.binary_search_by_key(&line, |it| it.0).unwrap()].1
    }
}

/// Writes a number at the right end of a field of blanks.
fn right(field: &mut [u8], mut number: u64) {
    for digit in field.iter_mut().rev() {
        *digit = b'0' + (number % 10) as u8;
        number /= 10;
        if number == 0 {
            return;
        }
    }
}

/// The line of an article on a pallet in a status.
fn article_line(sscc: &[u8], received: u64, gtin: &[u8; 14], sums: [u64; 4]) -> [u8; 114] {
    let mut line = [b' '; 114];
    line[0] = b'P';
    line[2..20].copy_from_slice(sscc);
    line[21..35].copy_from_slice(gtin);
    line[36] = b"ARC"[received as usize];
    line[38..98].chunks_mut(15).zip(sums).for_each(|(field, it)| right(&mut field[..14], it));
    let difference = if received == 0 { 0 } else { (sums[1] + sums[2] + sums[3]) as i64 - sums[0] as i64 };
    right(&mut line[98..113], difference.unsigned_abs());
    let before = line[98..113].iter().rposition(|&it| it == b' ').unwrap();
    line[98 + before] = if difference < 0 { b'-' } else { b'+' };
    line[113] = b'\n';
    line
}

/// The date and time of a moment, as YYMMDD:HHMM.
fn date_and_time(moment: u64) -> String {
    let (date, time) = clock(moment);
    format!("{date}:{time}")
}

impl Server {
    fn over(register: &str, db: &str) -> Server {
        let text = std::fs::read_to_string(register).unwrap();
        let mut blocks = text.split("[[supplier]]");
        let first = quoted(blocks.next().unwrap());
        let mut parties = vec![Party { gln: first[1].clone(), key: first[2].clone() }];
        parties.extend(blocks.map(quoted).map(|it| Party { gln: it[0].clone(), key: it[2].clone() }));
        let suppliers = parties[1..].iter().map(|it| it.gln.as_bytes().try_into().unwrap()).collect();
        let hub = Hub::over(db, suppliers);
        let of = |text| hub.prepared(text);
        Server {
            hub_gln: first[0].clone(),
            parties,
            list: of("SELECT number, kind, document FROM mail WHERE supplier = ?1 AND number > ?2 AND taken = 0 ORDER BY number LIMIT 101"),
            item: of("SELECT moment, decimal, body FROM mail WHERE supplier = ?1 AND number = ?2"),
            take: of("UPDATE mail SET taken = 1 WHERE supplier = ?1 AND number = ?2"),
            lines: of(
                "SELECT number, line, gtin, answer, ordered, open_qty, refused, cancelled FROM line WHERE supplier = ?1 ORDER BY number, line",
            ),
            pallets: of("SELECT sscc, received FROM pallet WHERE supplier = ?1 ORDER BY sscc"),
            contents: of("SELECT number, line, quantity FROM content WHERE sscc = ?1"),
            receipts: of("SELECT gtin, accepted, returned, destroyed FROM receipt WHERE sscc = ?1"),
            line: of("SELECT open_qty FROM line WHERE supplier = ?1 AND number = ?2 AND line = ?3"),
            cancel: of(
                "UPDATE line SET open_qty = open_qty - ?4, cancelled = cancelled + ?4 WHERE supplier = ?1 AND number = ?2 AND line = ?3",
            ),
            recall: of("SELECT content FROM remembered WHERE supplier = ?1 AND side = 67 AND control = ?2 AND message = x''"),
            remember: of("INSERT INTO remembered VALUES (?1, 67, ?2, x'', ?3)"),
            hub,
        }
    }

    fn mail_list(&self, gln: &str, after: u64) -> Vec<u8> {
        let (mut text, mut count) = (Vec::with_capacity(8192), 0);
        self.list.run(&[Bytes(gln.as_bytes()), Number(after)], |row| {
            count += 1;
            if count <= 100 {
                let mut head = *b"               ORDERS ";
                right(&mut head[..14], row.number(0));
                if row.number(1) != u64::from(b'O') {
                    head[15..21].copy_from_slice(b"RECADV");
                }
                text.extend_from_slice(&head);
                text.extend_from_slice(row.lent(2));
                text.push(b'\n');
            }
        });
        text.extend_from_slice(if count > 100 { b"more\n" } else { b"end\n" });
        text
    }

    fn mail_item(&self, gln: &str, number: u64) -> Option<Vec<u8>> {
        let mut found = None;
        self.item.run(&[Bytes(gln.as_bytes()), Number(number)], |row| {
            let mark = row.number(1) as u8 as char;
            let head = format!("UNA:+{mark}? 'UNB+UNOC:3+{}:14+{gln}:14+{}+{number}'", self.hub_gln, date_and_time(row.number(0)));
            let mut text = head.into_bytes();
            text.extend_from_slice(row.lent(2));
            write!(text, "UNZ+1+{number}'").unwrap();
            found = Some(text);
        });
        found
    }

    /// The status in one transaction, so that the statements of each pallet need not begin their own.
    fn status(&self, gln: &str) -> Vec<u8> {
        let mut text = Vec::new();
        self.hub.in_one(|| {
            let lines = self.put_lines(gln, &mut text);
            self.put_pallets(gln, &lines, &mut text);
        });
        text.extend_from_slice(b"end\n");
        text
    }

    fn put_lines(&self, gln: &str, text: &mut Vec<u8>) -> Lines {
        let mut lines = Lines::default();
        self.lines.run(&[Bytes(gln.as_bytes())], |row| {
            let (number, place, gtin) = (row.lent(0), row.number(1), gtin_of(row, 2));
            let [ordered, open, refused, cancelled] = [4, 5, 6, 7].map(|at| row.number(at));
            let mut line = [b' '; 112];
            line[0] = b'L';
            line[2..2 + number.len()].copy_from_slice(number);
            right(&mut line[38..44], place);
            line[45..59].copy_from_slice(&gtin);
            line[60] = row.number(3) as u8;
            let quantities = [ordered, open, refused, cancelled, ordered - open - refused - cancelled];
            line[62..].chunks_mut(10).zip(quantities).for_each(|(field, it)| right(&mut field[..9], it));
            line[111] = b'\n';
            text.extend_from_slice(&line);
            lines.push(number, place, gtin);
        });
        lines
    }

    fn put_pallets(&self, gln: &str, lines: &Lines, text: &mut Vec<u8>) {
        let mut articles: Vec<Article> = Vec::new();
        self.pallets.run(&[Bytes(gln.as_bytes())], |pallet| {
            let (sscc, received) = (pallet.lent(0), pallet.number(1));
            self.contents.run(&[Bytes(sscc)], |row| articles.push((lines.gtin(row.lent(0), row.number(1)), [row.number(2), 0, 0, 0])));
            // what is announced has no receipts
            if received > 0 {
                let of = |row: &Statement| (gtin_of(row, 0), [0, row.number(1), row.number(2), row.number(3)]);
                self.receipts.run(&[Bytes(sscc)], |row| articles.push(of(row)));
            }
            articles.sort_unstable_by_key(|it| it.0);
            for of_one in articles.chunk_by(|one, other| one.0 == other.0) {
                let sums = of_one.iter().fold([0; 4], |sums, it| [0, 1, 2, 3].map(|at| sums[at] + it.1[at]));
                text.extend_from_slice(&article_line(sscc, received, &of_one[0].0, sums));
            }
            articles.clear();
        });
    }

    /// A cancellation of five lines; what is refused is told without its number.
    fn cancelled(&self, body: &[u8]) -> (u16, Vec<u8>) {
        let text = String::from_utf8_lossy(body);
        let [supplier, reference, order, line, quantity, ""] = text.split('\n').collect::<Vec<_>>()[..] else {
            return (400, b"bad request\n".to_vec());
        };
        let (Ok(line), Ok(quantity)) = (line.parse(), quantity.parse::<u64>()) else {
            return (400, b"bad request\n".to_vec());
        };
        let (supplier, reference, order) = (Bytes(supplier.as_bytes()), Bytes(reference.as_bytes()), Bytes(order.as_bytes()));
        let mut before = None;
        self.recall.run(&[supplier, reference], |row| before = Some(row.bytes(0)));
        if let Some(before) = before {
            return (200, if before == body { b"repeated\n".to_vec() } else { b"refused\n".to_vec() });
        }
        let mut open = 0;
        self.line.run(&[supplier, order, Number(line)], |row| open = row.number(0));
        if quantity == 0 || quantity > open {
            return (200, b"refused\n".to_vec());
        }
        self.hub.in_one(|| {
            self.cancel.run(&[supplier, order, Number(line), Number(quantity)], |_| ());
            self.remember.run(&[supplier, reference, Bytes(body)], |_| ());
        });
        (200, b"accepted\n".to_vec())
    }

    fn answer(&self, method: &str, path: &str, key: Option<&str>, body: &[u8]) -> (u16, Vec<u8>) {
        let parts: Vec<&str> = path.split('/').skip(1).collect();
        let ["p", gln, rest @ ..] = parts.as_slice() else {
            return (404, b"unknown\n".to_vec());
        };
        if !self.parties.iter().any(|it| it.gln == *gln && Some(it.key.as_str()) == key) {
            return (403, b"denied\n".to_vec());
        }
        match (method, rest) {
            ("POST", ["interchanges"]) => (200, self.hub.upload(body)),
            ("GET", ["mail", "after", number]) => (200, self.mail_list(gln, number.parse().unwrap())),
            ("GET", ["mail", "item", number]) => match self.mail_item(gln, number.parse().unwrap()) {
                Some(text) => (200, text),
                None => (404, b"unknown\n".to_vec()),
            },
            ("POST", ["mail", "item", number, "taken"]) => {
                self.take.run(&[Bytes(gln.as_bytes()), Number(number.parse().unwrap())], |_| ());
                (200, b"taken\n".to_vec())
            }
            ("GET", ["status"]) => (200, self.status(gln)),
            ("GET", ["status", supplier]) => (200, self.status(supplier)),
            ("POST", ["cancellations"]) => self.cancelled(body),
            _ => (405, b"method\n".to_vec()),
        }
    }

    fn serve(&self, stream: &mut TcpStream) -> std::io::Result<u16> {
        stream.set_read_timeout(Some(Duration::from_secs(10)))?;
        stream.set_write_timeout(Some(Duration::from_secs(10)))?;
        let (mut bytes, mut piece) = (Vec::new(), [0; 8192]);
        let end = loop {
            let count = stream.read(&mut piece)?;
            bytes.extend_from_slice(&piece[..count]);
            match bytes.windows(4).position(|it| it == b"\r\n\r\n") {
                Some(at) => break at + 4,
                None if count == 0 => return Ok(0),
                None => {}
            }
        };
        let head = String::from_utf8_lossy(&bytes[..end]).into_owned();
        let mut lines = head.split("\r\n");
        let first: Vec<&str> = lines.next().unwrap().split(' ').collect();
        let (mut key, mut length) = (None, 0);
        for (name, value) in lines.filter_map(|line| line.split_once(':')) {
            if name.eq_ignore_ascii_case("x-hub-key") {
                key = Some(value.trim());
            } else if name.eq_ignore_ascii_case("content-length") {
                length = value.trim().parse().unwrap();
            }
        }
        let mut body = bytes[end..].to_vec();
        while body.len() < length {
            let count = stream.read(&mut piece)?;
            body.extend_from_slice(&piece[..count]);
        }
        let (status, text) = self.answer(first[0], first[1], key, &body[..length]);
        let phrase = if status == 200 { "OK" } else { "Not Found" };
        let length = text.len();
        let mut response = format!(
            "HTTP/1.1 {status} {phrase}\r\nContent-Type: application/octet-stream\r\nContent-Length: {length}\r\n\
             Connection: close\r\n\r\n"
        )
        .into_bytes();
        response.extend_from_slice(&text);
        stream.write_all(&response)?;
        stream.shutdown(Shutdown::Write)?;
        stream.set_read_timeout(Some(Duration::from_secs(1)))?;
        while stream.read(&mut piece)? > 0 {}
        Ok(status)
    }
}

fn main() {
    let words: Vec<String> = std::env::args().collect();
    let server = Server::over(&words[1], &words[2]);
    let listener = TcpListener::bind(("127.0.0.1", words[3].parse().unwrap())).unwrap();
    println!("listening {}", words[3]);
    for number in 1..=words[4].parse::<u64>().unwrap() {
        let (mut stream, _) = listener.accept().unwrap();
        match server.serve(&mut stream) {
            Ok(status) => println!("connection {number} {status}"),
            Err(_) => println!("connection {number} fault"),
        }
    }
}
