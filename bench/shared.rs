//! What the plain programs share: the characters of a text, its service string, what an envelope asks, the date and
//! time of a moment, and how a text is relayed.
use std::collections::HashSet;
use std::fs::File;
use std::io::{Read, Write};
use std::os::fd::AsFd;

pub const TEXT_LIMIT: usize = 1_048_576;
pub const SEGMENT_LIMIT: usize = 8_192;

pub type Fault = &'static str;

#[derive(Clone, Copy)]
pub struct Service {
    pub component: u8,
    pub element: u8,
    pub decimal: u8,
    pub release: Option<u8>,
    pub terminator: u8,
}

pub const USUAL: Service = Service { component: b':', element: b'+', decimal: b'.', release: Some(b'?'), terminator: b'\'' };

fn is_mark(b: u8) -> bool {
    (0x21..=0x7E).contains(&b) && !b.is_ascii_alphanumeric()
}

pub fn service_of(six: &[u8]) -> Option<Service> {
    let [component, element, decimal, release, reserved, terminator] = *six else { return None };
    let release = (release != b' ').then_some(release);
    let marks = [Some(component), Some(element), release, Some(terminator)];
    let all: Vec<u8> = marks.iter().flatten().copied().collect();
    let apart = all.iter().collect::<HashSet<_>>().len() == all.len();
    let right = apart
        && all.iter().all(|&b| is_mark(b))
        && matches!(decimal, b'.' | b',')
        && !all.contains(&decimal)
        && (0x20..=0x7E).contains(&reserved);
    right.then_some(Service { component, element, decimal, release, terminator })
}

#[derive(Clone, Copy, PartialEq)]
pub enum Class {
    Data,
    Component,
    Element,
    Terminator,
    Release,
    Bad,
}

pub fn classes(s: &Service) -> [Class; 256] {
    let mut table = [Class::Bad; 256];
    for b in (0x20..=0x7E).chain(0xA0..=0xFF) {
        table[b] = Class::Data;
    }
    table[s.component as usize] = Class::Component;
    table[s.element as usize] = Class::Element;
    table[s.terminator as usize] = Class::Terminator;
    if let Some(r) = s.release {
        table[r as usize] = Class::Release;
    }
    table
}

pub fn is_tag_byte(b: u8) -> bool {
    b.is_ascii_uppercase() || b.is_ascii_digit()
}

pub fn is_reference(b: &[u8]) -> bool {
    (1..=14).contains(&b.len()) && b.iter().all(|b| (0x20..=0x7E).contains(b))
}

pub fn count_of(b: &[u8]) -> Option<usize> {
    ((1..=6).contains(&b.len()) && b.iter().all(u8::is_ascii_digit)).then(|| b.iter().fold(0, |n, d| 10 * n + (d - b'0') as usize))
}

pub fn is_part(b: &[u8], low: usize, high: usize) -> bool {
    (low..=high).contains(&b.len()) && b.iter().all(|&b| b <= 0x7E)
}

/// Whether the components of UNB, each by its element and its place, are those of a right header.
pub fn is_head<'a>(component: impl Fn(usize, usize) -> &'a [u8]) -> bool {
    let partner = |e: usize| (1..=35).contains(&component(e, 0).len()) && component(e, 1) == b"14";
    let digits = |b: &[u8], n: usize| b.len() == n && b.iter().all(u8::is_ascii_digit);
    matches!(component(0, 0), b"UNOA" | b"UNOB" | b"UNOC")
        && component(0, 1) == b"3"
        && partner(1)
        && partner(2)
        && digits(component(3, 0), 6)
        && digits(component(3, 1), 4)
        && is_reference(component(4, 0))
        && matches!(component(10, 0), b"" | b"1")
}

/// The service string, where the text has one in front, and how many bytes it takes. `long`: the text was cut at its limit.
#[inline]
pub fn service_in_front(text: &[u8], long: bool) -> Result<(Service, usize), Fault> {
    if !text.starts_with(b"UNA") {
        return Ok((USUAL, 0));
    }
    let six = text.get(3..9).ok_or(if long { "E01" } else { "E02" })?;
    Ok((service_of(six).ok_or("E02")?, 9))
}

pub fn clock(moment: u64) -> (String, String) {
    let (mut days, seconds) = (moment / 86_400, moment % 86_400);
    let leap = |y: u64| y % 4 == 0 && (y % 100 != 0 || y % 400 == 0);
    let mut year = 1970;
    while days >= 365 + leap(year) as u64 {
        days -= 365 + leap(year) as u64;
        year += 1;
    }
    let months = [31, 28 + leap(year) as u64, 31, 30, 31, 30, 31, 31, 30, 31, 30, 31];
    let mut month = 0;
    while days >= months[month] {
        days -= months[month];
        month += 1;
    }
    (
        format!("{:02}{:02}{:02}", year % 100, month + 1, days + 1),
        format!("{:02}{:02}", seconds / 3600, seconds % 3600 / 60),
    )
}

/// The words of `relay`.
pub struct Words {
    pub hub: String,
    pub owner: String,
    pub moment: u64,
    pub number: u64,
}

/// Relays standard input: writes the mail texts, or says what it is refused with.
#[inline]
pub fn relayed(relay: impl FnOnce(&Words, &[u8]) -> Result<Vec<u8>, Fault>) {
    let words: Vec<String> = std::env::args().collect();
    let value = |name: &str| words.iter().position(|w| w == name).and_then(|at| words.get(at + 1)).expect(name).clone();
    let number = |name: &str| value(name).parse().unwrap();
    let words = Words { hub: value("--hub"), owner: value("--owner"), moment: number("--moment"), number: number("--number") };
    let mut text = Vec::new();
    std::io::stdin().take(TEXT_LIMIT as u64 + 1).read_to_end(&mut text).unwrap();
    match relay(&words, &text) {
        // standard output as a file, which looks for no line ends
        Ok(out) => File::from(std::io::stdout().as_fd().try_clone_to_owned().unwrap()).write_all(&out).unwrap(),
        Err(fault) => {
            eprintln!("refused {fault}");
            std::process::exit(1);
        }
    }
}
