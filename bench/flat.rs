//! The second yardstick of `make bench`: `relay` as a plain Rust program for speed, `rustc -O` and std alone. One buffer takes
//! the mail texts: runs of plain bytes are found and copied whole, and only the segments of the envelope are looked into, in
//! the text that was just written.
use std::collections::HashSet;

#[allow(dead_code)]
#[path = "shared.rs"]
mod shared;

use shared::{
    Class, Fault, SEGMENT_LIMIT, Service, TEXT_LIMIT, USUAL, Words, classes, clock, count_of, is_head, is_part, is_reference, is_tag_byte,
    relayed, service_in_front,
};

/// What a byte of data is to the copy of a segment.
#[derive(Clone, Copy, PartialEq)]
enum Step {
    Plain,
    /// Data, before which the copy has a release character.
    Released,
    Component,
    Element,
    Terminator,
    Release,
    Bad,
}

fn is_data(b: u8) -> bool {
    matches!(b, 0x20..=0x7E | 0xA0..)
}

fn is_usual(b: u8) -> bool {
    matches!(b, b':' | b'+' | b'\'' | b'?')
}

fn steps(service: &Service) -> [Step; 256] {
    let classes = classes(service);
    std::array::from_fn(|b| match classes[b] {
        Class::Data if is_usual(b as u8) => Step::Released,
        Class::Data => Step::Plain,
        Class::Component => Step::Component,
        Class::Element => Step::Element,
        Class::Terminator => Step::Terminator,
        Class::Release => Step::Release,
        Class::Bad => Step::Bad,
    })
}

fn write_number(out: &mut Vec<u8>, number: u64) {
    out.extend_from_slice(number.to_string().as_bytes());
}

struct Reader<'a> {
    text: &'a [u8],
    at: usize,
    steps: [Step; 256],
}

impl Reader<'_> {
    fn skip_line_ends(&mut self) {
        while matches!(self.text.get(self.at), Some(b'\r' | b'\n')) {
            self.at += 1;
        }
    }

    /// Copies the tag. Whether data follows.
    fn tag(&mut self, out: &mut Vec<u8>) -> Result<bool, Fault> {
        let head = &self.text[self.at..];
        if let &[first, second, third, b, ..] = head {
            if !(first.is_ascii_uppercase() && is_tag_byte(second) && is_tag_byte(third)) {
                return Err("E05");
            }
            out.extend_from_slice(&[first, second, third]);
            self.at += 4;
            return match self.steps[b as usize] {
                Step::Terminator => Ok(false),
                Step::Element => Ok(true),
                _ => Err("E05"),
            };
        }
        let right = head[0].is_ascii_uppercase() && head.iter().all(|&b| is_tag_byte(b));
        Err(if right { "E04" } else { "E05" })
    }

    /// Copies the elements of a segment that began at `start`, without the empty ones at their ends. Bytes that stay as they
    /// are, separators among them, are copied together.
    fn elements(&mut self, start: usize, out: &mut Vec<u8>) -> Result<(), Fault> {
        let text = &self.text[..self.text.len().min(start + SEGMENT_LIMIT)];
        let cut = if text.len() < self.text.len() { "E20" } else { "E04" };
        // where in the copy the last component ends that is not empty, and where the open element begins
        let mut kept = out.len();
        out.push(b'+');
        let mut element = out.len();
        // from where on nothing is copied yet, and where the open component begins
        let mut from = self.at;
        let mut component = self.at;
        let mut at = self.at;
        loop {
            while at < text.len() && self.steps[text[at] as usize] == Step::Plain {
                at += 1;
            }
            let b = *text.get(at).ok_or(cut)?;
            match self.steps[b as usize] {
                Step::Plain | Step::Bad => return Err("E03"),
                Step::Released => {
                    out.extend_from_slice(&text[from..at]);
                    out.push(b'?');
                    from = at;
                }
                Step::Release => {
                    let released = *text.get(at + 1).ok_or(cut)?;
                    if !is_data(released) {
                        return Err("E03");
                    }
                    if b != b'?' || !is_usual(released) {
                        out.extend_from_slice(&text[from..at]);
                        if is_usual(released) {
                            out.push(b'?');
                        }
                        from = at + 1;
                    }
                    at += 1;
                }
                step => {
                    if component < at {
                        kept = out.len() + at - from;
                    }
                    component = at + 1;
                    let longest = if step == Step::Element { kept.max(element) } else { kept };
                    if step == Step::Component {
                        if b != b':' {
                            out.extend_from_slice(&text[from..at]);
                            out.push(b':');
                            from = at + 1;
                        }
                    } else if step == Step::Element && b == b'+' && out.len() + at - from == longest {
                        element = longest + 1;
                    } else {
                        out.extend_from_slice(&text[from..at]);
                        out.truncate(longest);
                        if step == Step::Terminator {
                            self.at = at + 1;
                            return Ok(());
                        }
                        out.push(b'+');
                        from = at + 1;
                        element = out.len();
                    }
                }
            }
            at += 1;
        }
    }

    /// Copies a segment.
    fn segment(&mut self, out: &mut Vec<u8>) -> Result<(), Fault> {
        let start = self.at;
        if self.tag(out)? {
            self.elements(start, out)?;
        }
        out.push(b'\'');
        Ok(())
    }
}

/// A segment of the envelope: its text as it was written, and its components.
#[derive(Default)]
struct Segment {
    text: Vec<u8>,
    /// The bytes of its components behind one another, where each of them ends, and how many there are up to the end of
    /// each element.
    bytes: Vec<u8>,
    ends: Vec<usize>,
    elements: Vec<usize>,
}

impl Segment {
    fn read(&mut self, text: &[u8]) {
        self.text.clear();
        self.text.extend_from_slice(text);
        self.bytes.clear();
        self.ends.clear();
        self.elements.clear();
        let mut at = 4;
        while at < text.len() {
            match text[at] {
                b':' => self.ends.push(self.bytes.len()),
                b'+' | b'\'' => {
                    self.ends.push(self.bytes.len());
                    self.elements.push(self.ends.len());
                }
                b'?' => {
                    at += 1;
                    self.bytes.push(text[at]);
                }
                b => self.bytes.push(b),
            }
            at += 1;
        }
    }

    fn component(&self, element: usize, place: usize) -> &[u8] {
        let first = if element == 0 { 0 } else { self.elements.get(element - 1).copied().unwrap_or(usize::MAX) };
        if first.saturating_add(place) >= self.elements.get(element).copied().unwrap_or(0) {
            return &[];
        }
        let at = first + place;
        &self.bytes[if at == 0 { 0 } else { self.ends[at - 1] }..self.ends[at]]
    }

    /// Appends its text, with the first component of an element as `1` where it has one.
    fn write_numbered(&self, out: &mut Vec<u8>, element: usize) {
        let mut passed = 0;
        let mut rest = self.text.as_slice();
        let is_end = |b: u8| matches!(b, b'+' | b':' | b'\'');
        while let Some(at) = rest.iter().position(|&b| b == b'+' || b == b'?') {
            let escaped = rest[at] == b'?';
            let (front, after) = rest.split_at(at + 1 + escaped as usize);
            out.extend_from_slice(front);
            rest = after;
            passed += !escaped as usize;
            if passed == element + 1 {
                break;
            }
        }
        if passed == element + 1 && !matches!(rest[0], b'+' | b'\'') {
            out.push(b'1');
            while !is_end(rest[0]) {
                rest = &rest[1 + (rest[0] == b'?') as usize..];
            }
        }
        out.extend_from_slice(rest);
    }
}

#[derive(PartialEq)]
enum Frame {
    Start,
    Inside,
    Ended,
    Broken,
}

/// What is known of the envelope so far, and the mail texts.
struct Relay {
    /// The interchange header of each mail text, up to its number.
    header: Vec<u8>,
    number: u64,
    decimal: u8,
    frame: Frame,
    lowest: usize,
    control: Vec<u8>,
    narrow: bool,
    wide: bool,
    /// The reference of the message that is open.
    reference: Vec<u8>,
    open: bool,
    count: usize,
    messages: usize,
    references: HashSet<Vec<u8>>,
    /// The segment of the envelope that came last.
    segment: Segment,
    out: Vec<u8>,
}

impl Relay {
    fn note(&mut self, number: usize) {
        self.lowest = self.lowest.min(number);
    }

    fn begin(&mut self) {
        let out = &mut self.out;
        out.extend_from_slice(&[b'U', b'N', b'A', b':', b'+', self.decimal, b'?', b' ', b'\'']);
        out.extend_from_slice(&self.header);
        write_number(out, self.number + self.messages as u64);
        out.push(b'\'');
    }

    fn header(&mut self) {
        let segment = &self.segment;
        let right = is_head(|element, place| segment.component(element, place));
        let test = segment.component(10, 0) == b"1";
        self.narrow = segment.component(0, 0) != b"UNOC";
        self.control = segment.component(4, 0).to_vec();
        if !right {
            self.note(7);
        }
        if test {
            self.note(17);
        }
    }

    fn message_header(&mut self) {
        if self.open {
            self.note(10);
        }
        let reference = self.segment.component(0, 0);
        let right = is_reference(reference);
        let part = |place, low, high| is_part(self.segment.component(1, place), low, high);
        let right = right && part(0, 1, 6) && (1..=3).all(|place| part(place, 1, 3)) && part(4, 0, 6);
        let fresh = self.references.insert(reference.to_vec());
        self.reference.clear();
        self.reference.extend_from_slice(reference);
        if !right {
            self.note(11);
        }
        if !fresh {
            self.note(16);
        }
        self.begin();
        self.open = true;
        self.messages += 1;
        self.count = 1;
        self.segment.write_numbered(&mut self.out, 0);
    }

    fn message_trailer(&mut self) {
        if !self.open {
            return self.note(10);
        }
        self.open = false;
        self.count += 1;
        match count_of(self.segment.component(0, 0)) {
            None => self.note(11),
            Some(count) if count != self.count => self.note(12),
            _ => {}
        }
        if self.segment.component(1, 0) != self.reference {
            self.note(13);
        }
        self.segment.write_numbered(&mut self.out, 1);
        self.out.extend_from_slice(b"UNZ+1+");
        write_number(&mut self.out, self.number + self.messages as u64 - 1);
        self.out.push(b'\'');
    }

    fn trailer(&mut self) {
        if self.open {
            self.note(10);
        }
        if count_of(self.segment.component(0, 0)) != Some(self.messages) {
            self.note(14);
        }
        if self.segment.component(1, 0) != self.control {
            self.note(15);
        }
        if self.messages > 999 {
            self.note(18);
        }
    }

    /// Takes back a segment of the envelope from what was written, and judges it.
    fn envelope(&mut self, from: usize) {
        self.segment.read(&self.out[from..]);
        self.out.truncate(from);
        match (&self.frame, &self.segment.text[..3]) {
            (Frame::Start, b"UNB") => {
                self.frame = Frame::Inside;
                self.header();
            }
            (Frame::Inside, b"UNZ") => {
                self.frame = Frame::Ended;
                self.trailer();
            }
            (Frame::Inside, b"UNH") => self.message_header(),
            (Frame::Inside, b"UNT") => self.message_trailer(),
            _ => self.frame = Frame::Broken,
        }
    }

    /// Takes the segment that was written from here on.
    fn take(&mut self, from: usize) {
        match &self.out[from..from + 3] {
            b"UNB" | b"UNZ" | b"UNH" | b"UNT" => self.envelope(from),
            tag if self.frame == Frame::Inside => {
                let grouped = matches!(tag, b"UNG" | b"UNE");
                if grouped || !self.open {
                    self.note(10);
                }
                self.count += 1;
            }
            _ => self.frame = Frame::Broken,
        }
    }

    fn end(mut self) -> Result<Vec<u8>, Fault> {
        if self.frame != Frame::Ended {
            return Err("E06");
        }
        if self.narrow && self.wide {
            self.note(19);
        }
        const NAMES: [Fault; 13] = ["E07", "", "", "E10", "E11", "E12", "E13", "E14", "E15", "E16", "E17", "E18", "E19"];
        if self.lowest < 99 { Err(NAMES[self.lowest - 7]) } else { Ok(self.out) }
    }
}

fn relay(text: &[u8], mut relay: Relay) -> Result<Vec<u8>, Fault> {
    let whole = &text[..text.len().min(TEXT_LIMIT)];
    let mut reader = Reader { text: whole, at: 0, steps: steps(&USUAL) };
    reader.skip_line_ends();
    let (service, length) = service_in_front(&whole[reader.at..], text.len() > TEXT_LIMIT)?;
    reader.steps = steps(&service);
    reader.at += length;
    relay.decimal = service.decimal;
    loop {
        reader.skip_line_ends();
        if reader.at == whole.len() {
            break;
        }
        let from = relay.out.len();
        reader.segment(&mut relay.out).map_err(|fault| if fault == "E04" && text.len() > TEXT_LIMIT { "E01" } else { fault })?;
        relay.take(from);
    }
    if text.len() > TEXT_LIMIT {
        return Err("E01");
    }
    relay.wide = whole.iter().fold(0, |all, b| all | b) >= 0x80;
    relay.end()
}

/// What is known before the first segment.
fn begun(words: &Words) -> Relay {
    let (date, time) = clock(words.moment);
    Relay {
        header: format!("UNB+UNOC:3+{}:14+{}:14+{date}:{time}+", words.hub, words.owner).into_bytes(),
        number: words.number,
        decimal: b'.',
        frame: Frame::Start,
        lowest: 99,
        control: Vec::new(),
        narrow: false,
        wide: false,
        reference: Vec::new(),
        open: false,
        count: 0,
        messages: 0,
        references: HashSet::new(),
        segment: Segment::default(),
        out: Vec::with_capacity(TEXT_LIMIT + TEXT_LIMIT / 4),
    }
}

fn main() {
    relayed(|words, text| relay(text, begun(words)));
}
