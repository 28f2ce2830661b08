//! The yardstick of the hub's benchmark: orders, despatch advices and the status as a plain Rust program, `rustc -O`
//! and std alone, with ordered maps. It plays the scripts of hub.py as `trial_script` does: it reads and checks the
//! messages, keeps the same rows, and writes the same replies. What is refused ends it, as none of these loads has it.
#[allow(dead_code)]
#[path = "plain.rs"]
pub mod plain;

use plain::{Message, Segment, open, read, write_segment};
use std::collections::{BTreeMap, BTreeSet, HashSet};
use std::io::{Read, Write};

pub type Gln = [u8; 13];

struct Line {
    gtin: [u8; 14],
    ordered: u32,
    open: u32,
    refused: u32,
    cancelled: u32,
    answer: u8,
}

struct Content {
    order: Vec<u8>,
    line: u32,
    quantity: u32,
}

struct Pallet {
    _advice: Vec<u8>,
    contents: Vec<Content>,
}

struct Mail {
    _kind: Vec<u8>,
    _document: Vec<u8>,
    _body: Vec<u8>,
}

#[derive(Default)]
struct Hub {
    suppliers: Vec<Gln>,
    orders: BTreeSet<(Gln, Vec<u8>)>,
    lines: BTreeMap<(Gln, Vec<u8>, u32), Line>,
    advices: BTreeSet<(Gln, Vec<u8>)>,
    used: BTreeSet<[u8; 18]>,
    pallets: BTreeMap<(Gln, [u8; 18]), Pallet>,
    remembered: BTreeMap<(Gln, u8, Vec<u8>, Vec<u8>), Vec<u8>>,
    mail: BTreeMap<(Gln, u64), Mail>,
}

pub fn valid_digits<const N: usize>(text: &[u8]) -> [u8; N] {
    let mut digits = [b'0'; N];
    digits[N - text.len()..].copy_from_slice(text);
    let sum: u32 = digits.iter().rev().enumerate().map(|(place, b)| (b - b'0') as u32 * if place % 2 == 0 { 1 } else { 3 }).sum();
    assert!(digits.iter().all(u8::is_ascii_digit) && sum % 10 == 0);
    digits
}

fn number(text: &[u8]) -> u32 {
    let whole = text.iter().position(|b| matches!(b, b'.' | b',')).unwrap_or(text.len());
    assert!(text.len() <= 35 && text[whole..].iter().skip(1).all(|&b| b == b'0'));
    std::str::from_utf8(&text[..whole]).unwrap().parse().unwrap()
}

fn document_date(segment: &Segment) {
    let text = segment.component(0, 1);
    assert!(segment.component(0, 2) == b"102" && text.len() == 8);
    let (month, day) = (number(&text[4..6]), number(&text[6..]));
    assert!((1..=12).contains(&month) && (1..=31).contains(&day));
}

/// The header's parts: document number, supplier, and the order that it names.
pub fn header(message: &Message, code: &[u8]) -> (Vec<u8>, Gln, Vec<u8>, usize) {
    let bgm = &message.segments[1];
    let right = bgm.tag == *b"BGM" && bgm.component(0, 0) == code && bgm.component(2, 0) == b"9";
    assert!(right && message.identifiers[0] == b"D" && message.identifiers[1] == b"01B" && message.identifiers[2] == b"UN");
    let body = &message.segments[2..];
    assert!(body.iter().all(|s| s.tag != *b"BGM"));
    let end = body.iter().position(|s| matches!(&s.tag, b"LIN" | b"CPS" | b"UNS" | b"UNT")).unwrap();
    let (mut dates, mut buyer, mut supplier, mut order) = (0, None, None, Vec::new());
    for segment in &body[..end] {
        match (&segment.tag, segment.component(0, 0)) {
            (b"DTM", b"137") => {
                dates += 1;
                document_date(segment);
            }
            (b"NAD", b"BY") => assert!(buyer.replace(valid_digits::<13>(segment.component(1, 0))).is_none()),
            (b"NAD", b"SU") => assert!(supplier.replace(valid_digits::<13>(segment.component(1, 0))).is_none()),
            (b"RFF", b"ON") => order = segment.component(0, 1).to_vec(),
            _ => {}
        }
    }
    assert!(dates == 1 && buyer.is_some());
    (bgm.component(1, 0).to_vec(), supplier.unwrap(), order, end + 2)
}

/// Line groups: line number, item and quantity.
pub fn line_groups(segments: &[Segment], quantity: &[u8]) -> Vec<(u32, [u8; 14], u32)> {
    let mut groups: Vec<(u32, [u8; 14], u32)> = Vec::new();
    let mut counted = true;
    for segment in segments {
        match &segment.tag {
            b"LIN" => {
                assert!(counted && segment.component(2, 1) == b"SRV");
                groups.push((number(segment.component(0, 0)), valid_digits::<14>(segment.component(2, 0)), 0));
                counted = false;
            }
            b"QTY" if segment.component(0, 0) == quantity => {
                assert!(!counted);
                counted = true;
                groups.last_mut().unwrap().2 = number(segment.component(0, 1));
            }
            b"CNT" => assert!(number(segment.component(0, 1)) as usize == groups.len()),
            _ => {}
        }
    }
    assert!(counted);
    groups
}

/// The suppliers of a register.
pub fn suppliers_of(register: &str) -> Vec<Gln> {
    let first_quoted = |entry: &str| entry.split('"').nth(1).unwrap().as_bytes().try_into().unwrap();
    register.split("[[supplier]]").skip(1).map(first_quoted).collect()
}

/// The reply to an upload, each message of which is taken by itself, or known already.
pub fn uploaded(text: &[u8], mut is_new: impl FnMut(&[u8], Message) -> bool) -> Vec<u8> {
    let (_, segments) = read(text).unwrap();
    let control = segments[0].component(4, 0).to_vec();
    let messages = open(segments).unwrap();
    let mut reply = format!("interchange {} messages {}\n", String::from_utf8_lossy(&control), messages.len()).into_bytes();
    for message in messages {
        let (reference, kind) = (message.reference.clone(), message.kind.clone());
        let is_new = is_new(&control, message);
        reply.extend_from_slice(&reference);
        reply.push(b' ');
        reply.extend_from_slice(&kind);
        reply.extend_from_slice(if is_new { b" accepted\n" } else { b" repeated\n" });
    }
    reply
}

/// Takes the next line of a script: its words, and the bytes whose number it names where it is one with bytes.
pub fn next_line<'a>(rest: &mut &'a [u8]) -> (Vec<&'a str>, &'a [u8]) {
    let end = rest.iter().position(|&b| b == b'\n').unwrap();
    let words: Vec<&str> = std::str::from_utf8(&rest[..end]).unwrap().split(' ').collect();
    let behind = &rest[end + 1..];
    if !matches!(words[0], "hub" | "upload") {
        *rest = behind;
        return (words, &[]);
    }
    let (payload, after) = behind.split_at(words[1].parse().unwrap());
    *rest = &after[1..];
    (words, payload)
}

impl Hub {
    /// Whether the same content is remembered; else it is put in.
    fn is_new(&mut self, supplier: Gln, side: u8, control: &[u8], message: &Message) -> bool {
        let mut content = Vec::new();
        message.segments.iter().for_each(|s| write_segment(&mut content, s));
        let key = (supplier, side, control.to_vec(), message.reference.clone());
        if let Some(before) = self.remembered.get(&key) {
            assert!(*before == content);
            return false;
        }
        self.remembered.insert(key, content);
        true
    }

    fn order(&mut self, control: &[u8], mut message: Message) -> bool {
        let (document, supplier, _, end) = header(&message, b"220");
        let groups = line_groups(&message.segments[end..], b"21");
        let numbers: HashSet<u32> = groups.iter().map(|it| it.0).collect();
        assert!(numbers.len() == groups.len() && self.suppliers.contains(&supplier));
        if !self.is_new(supplier, b'R', control, &message) {
            return false;
        }
        assert!(self.orders.insert((supplier, document.clone())));
        for (line, gtin, ordered) in groups {
            let row = Line { gtin, ordered, open: ordered, refused: 0, cancelled: 0, answer: b'W' };
            self.lines.insert((supplier, document.clone(), line), row);
        }
        let last = self.mail.range((supplier, 0)..=(supplier, u64::MAX)).next_back().map_or(0, |(key, _)| key.1);
        let end = message.segments.len() - 1;
        message.segments[0].elements[0][0] = b"1".to_vec();
        message.segments[end].elements[1][0] = b"1".to_vec();
        let mut body = Vec::new();
        message.segments.iter().for_each(|s| write_segment(&mut body, s));
        self.mail.insert((supplier, last + 1), Mail { _kind: message.kind, _document: document, _body: body });
        true
    }

    fn despatch(&mut self, control: &[u8], message: &Message) -> bool {
        let (document, supplier, order, end) = header(message, b"351");
        if !self.is_new(supplier, b'S', control, message) {
            return false;
        }
        assert!(self.advices.insert((supplier, document.clone())));
        for unit in message.segments[end..].split(|s| s.tag == *b"CPS").skip(1) {
            let sscc = unit.iter().find(|s| s.tag == *b"GIN").unwrap().component(1, 0);
            let sscc = valid_digits::<18>(sscc);
            assert!(self.used.insert(sscc));
            let mut contents = Vec::new();
            for (_, gtin, quantity) in line_groups(unit, b"12") {
                let lines = self.lines.range_mut((supplier, order.clone(), 0)..=(supplier, order.clone(), u32::MAX));
                let mut found = lines.filter(|(_, row)| row.gtin == gtin);
                let (key, row) = found.next().unwrap();
                assert!(found.next().is_none() && row.open >= quantity);
                row.open -= quantity;
                contents.push(Content { order: key.1.clone(), line: key.2, quantity });
            }
            self.pallets.insert((supplier, sscc), Pallet { _advice: document.clone(), contents });
        }
        true
    }

    fn upload(&mut self, text: &[u8]) -> Vec<u8> {
        uploaded(text, |control, message| {
            if message.kind == b"ORDERS" { self.order(control, message) } else { self.despatch(control, &message) }
        })
    }

    fn status(&self, supplier: Gln) -> Vec<u8> {
        let mut out = Vec::new();
        for ((_, order, line), row) in self.lines.range((supplier, vec![], 0)..).take_while(|it| it.0.0 == supplier) {
            let (order, gtin) = (std::str::from_utf8(order).unwrap(), std::str::from_utf8(&row.gtin).unwrap());
            let despatched = row.ordered - row.open - row.refused - row.cancelled;
            writeln!(
                out,
                "L {order:<35} {line:>6} {gtin} {} {:>9} {:>9} {:>9} {:>9} {despatched:>9}",
                row.answer as char, row.ordered, row.open, row.refused, row.cancelled
            )
            .unwrap();
        }
        for ((_, sscc), pallet) in self.pallets.range((supplier, [0; 18])..).take_while(|it| it.0.0 == supplier) {
            let mut items: BTreeMap<[u8; 14], u64> = BTreeMap::new();
            for content in &pallet.contents {
                let gtin = self.lines[&(supplier, content.order.clone(), content.line)].gtin;
                *items.entry(gtin).or_default() += content.quantity as u64;
            }
            for (gtin, despatched) in items {
                let (sscc, gtin) = (std::str::from_utf8(sscc).unwrap(), std::str::from_utf8(&gtin).unwrap());
                writeln!(out, "P {sscc} {gtin} A {despatched:>14} {:>14} {:>14} {:>14} {:>15}", 0, 0, 0, "+0").unwrap();
            }
        }
        out.extend_from_slice(b"end\n");
        out
    }
}

fn main() {
    let mut script = Vec::new();
    std::io::stdin().read_to_end(&mut script).unwrap();
    let (mut hub, mut rest, mut caller, mut quiet) = (Hub::default(), script.as_slice(), [0; 13], false);
    let mut out = std::io::stdout();
    while !rest.is_empty() {
        let (words, payload) = next_line(&mut rest);
        let reply = match words[0] {
            "hub" => {
                hub.suppliers = suppliers_of(std::str::from_utf8(payload).unwrap());
                continue;
            }
            "as" => {
                caller = words[2].as_bytes().try_into().unwrap();
                continue;
            }
            "quiet" => {
                quiet = true;
                continue;
            }
            "loud" => {
                quiet = false;
                continue;
            }
            "upload" => hub.upload(payload),
            // behind the greatest number a mailbox has no entry
            "after" => b"end\n".to_vec(),
            _ => hub.status(caller),
        };
        if !quiet {
            writeln!(out, "done {}", reply.len()).unwrap();
            out.write_all(&reply).unwrap();
        }
    }
}
