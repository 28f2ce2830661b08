//! The yardstick of `make bench`: `relay` as a plain Rust program, `rustc -O` and std alone.
//! It reads by slices into the same nested vectors, checks the same faults, copies each message once and
//! writes into one vector.
use std::collections::HashSet;

#[allow(dead_code)]
#[path = "shared.rs"]
pub mod shared;

use shared::{
    Class, Fault, SEGMENT_LIMIT, Service, TEXT_LIMIT, USUAL, classes, clock, count_of, is_head, is_part, is_reference, is_tag_byte, relayed,
    service_in_front,
};

pub struct Segment {
    pub tag: [u8; 3],
    pub elements: Vec<Vec<Vec<u8>>>,
}

struct Reader<'a> {
    text: &'a [u8],
    at: usize,
    classes: [Class; 256],
}

impl Reader<'_> {
    fn skip_line_ends(&mut self) {
        while matches!(self.text.get(self.at), Some(b'\r' | b'\n')) {
            self.at += 1;
        }
    }

    fn component(&mut self, end: usize, cut: Fault) -> Result<(Vec<u8>, Class), Fault> {
        let mut data = Vec::new();
        loop {
            let from = self.at;
            while self.at < end && self.classes[self.text[self.at] as usize] == Class::Data {
                self.at += 1;
            }
            data.extend_from_slice(&self.text[from..self.at]);
            if self.at == end {
                return Err(cut);
            }
            let class = self.classes[self.text[self.at] as usize];
            self.at += 1;
            match class {
                Class::Bad => return Err("E03"),
                Class::Release => {
                    if self.at == end {
                        return Err(cut);
                    }
                    let b = self.text[self.at];
                    if !matches!(b, 0x20..=0x7E | 0xA0..) {
                        return Err("E03");
                    }
                    data.push(b);
                    self.at += 1;
                }
                _ => return Ok((data, class)),
            }
        }
    }

    fn element(&mut self, end: usize, cut: Fault) -> Result<(Vec<Vec<u8>>, Class), Fault> {
        let mut components = Vec::new();
        loop {
            let (data, class) = self.component(end, cut)?;
            components.push(data);
            if class != Class::Component {
                while components.last().is_some_and(|c| c.is_empty()) {
                    components.pop();
                }
                return Ok((components, class));
            }
        }
    }

    fn segment(&mut self) -> Result<Segment, Fault> {
        let start = self.at;
        let end = self.text.len().min(start + SEGMENT_LIMIT);
        let cut = if end < self.text.len() { "E20" } else { "E04" };
        let mut tag = [0; 3];
        for (place, byte) in tag.iter_mut().enumerate() {
            let b = *self.text.get(self.at).ok_or("E04")?;
            if !(if place == 0 { b.is_ascii_uppercase() } else { is_tag_byte(b) }) {
                return Err("E05");
            }
            *byte = b;
            self.at += 1;
        }
        let b = *self.text.get(self.at).ok_or("E04")?;
        self.at += 1;
        let mut elements = Vec::new();
        match self.classes[b as usize] {
            Class::Terminator => return Ok(Segment { tag, elements }),
            Class::Element => {}
            _ => return Err("E05"),
        }
        loop {
            let (components, class) = self.element(end, cut)?;
            elements.push(components);
            if class == Class::Terminator {
                while elements.last().is_some_and(|e| e.is_empty()) {
                    elements.pop();
                }
                return Ok(Segment { tag, elements });
            }
        }
    }
}

pub fn read(text: &[u8]) -> Result<(Service, Vec<Segment>), Fault> {
    let whole = &text[..text.len().min(TEXT_LIMIT)];
    let mut reader = Reader { text: whole, at: 0, classes: classes(&USUAL) };
    reader.skip_line_ends();
    let (service, length) = service_in_front(&whole[reader.at..], text.len() > TEXT_LIMIT)?;
    reader.classes = classes(&service);
    reader.at += length;
    let mut segments = Vec::new();
    loop {
        reader.skip_line_ends();
        if reader.at == whole.len() {
            break;
        }
        segments.push(reader.segment().map_err(|fault| if fault == "E04" && text.len() > TEXT_LIMIT { "E01" } else { fault })?);
    }
    if text.len() > TEXT_LIMIT {
        return Err("E01");
    }
    Ok((service, segments))
}

impl Segment {
    pub fn component(&self, element: usize, place: usize) -> &[u8] {
        self.elements.get(element).and_then(|e| e.get(place)).map_or(&[], |c| c.as_slice())
    }
}

pub struct Message {
    pub kind: Vec<u8>,
    pub reference: Vec<u8>,
    pub identifiers: [Vec<u8>; 4],
    pub segments: Vec<Segment>,
}

pub fn open(segments: Vec<Segment>) -> Result<Vec<Message>, Fault> {
    let (Some(first), Some(last)) = (segments.first(), segments.last()) else { return Err("E06") };
    let inner = segments.len().saturating_sub(2);
    let framed = &first.tag == b"UNB" && &last.tag == b"UNZ" && segments.len() >= 2;
    if !framed || segments[1..1 + inner].iter().any(|s| matches!(&s.tag, b"UNB" | b"UNZ")) {
        return Err("E06");
    }
    if !is_head(|element, place| first.component(element, place)) {
        return Err("E07");
    }
    let control = first.component(4, 0) == last.component(1, 0);
    let test = first.component(10, 0) == b"1";
    let narrow = first.component(0, 0) != b"UNOC";
    let announced = count_of(last.component(0, 0));
    let wide = narrow && segments.iter().any(|s| s.elements.iter().flatten().flatten().any(|&b| b >= 0xA0));
    let mut messages: Vec<Message> = Vec::new();
    let mut open = false;
    let mut lowest = 99;
    let mut note = |n: u32| lowest = lowest.min(n);
    for segment in segments.into_iter().skip(1).take(inner) {
        match &segment.tag {
            b"UNH" => {
                if open {
                    return Err("E10");
                }
                open = true;
                let part = |p: usize| segment.component(1, p).to_vec();
                let message = Message {
                    kind: part(0),
                    reference: segment.component(0, 0).to_vec(),
                    identifiers: [part(1), part(2), part(3), part(4)],
                    segments: Vec::new(),
                };
                let limits = is_reference(&message.reference)
                    && is_part(&message.kind, 1, 6)
                    && message.identifiers[..3].iter().all(|b| is_part(b, 1, 3))
                    && is_part(&message.identifiers[3], 0, 6);
                if !limits {
                    note(11);
                }
                messages.push(message);
                messages.last_mut().unwrap().segments.push(segment);
            }
            b"UNG" | b"UNE" => return Err("E10"),
            tag => {
                if !open {
                    return Err("E10");
                }
                let message = messages.last_mut().unwrap();
                if tag == b"UNT" {
                    open = false;
                    match count_of(segment.component(0, 0)) {
                        None => note(11),
                        Some(n) if n != message.segments.len() + 1 => note(12),
                        _ => {}
                    }
                    if segment.component(1, 0) != message.reference {
                        note(13);
                    }
                }
                message.segments.push(segment);
            }
        }
    }
    if open {
        return Err("E10");
    }
    if announced != Some(messages.len()) {
        note(14);
    }
    if !control {
        note(15);
    }
    let references: HashSet<&[u8]> = messages.iter().map(|m| m.reference.as_slice()).collect();
    if references.len() < messages.len() {
        note(16);
    }
    if test {
        note(17);
    }
    if messages.len() > 999 {
        note(18);
    }
    if wide {
        note(19);
    }
    const NAMES: [Fault; 9] = ["E11", "E12", "E13", "E14", "E15", "E16", "E17", "E18", "E19"];
    if lowest < 99 { Err(NAMES[lowest as usize - 11]) } else { Ok(messages) }
}

fn wrap(hub: &[u8], owner: &[u8], moment: u64, number: u64, message: &Message) -> Vec<Segment> {
    let (date, time) = clock(moment);
    let number = number.to_string().into_bytes();
    let mut segments = Vec::with_capacity(message.segments.len() + 2);
    let element = |parts: &[&[u8]]| parts.iter().map(|p| p.to_vec()).collect::<Vec<_>>();
    segments.push(Segment {
        tag: *b"UNB",
        elements: vec![
            element(&[b"UNOC", b"3"]),
            element(&[hub, b"14"]),
            element(&[owner, b"14"]),
            element(&[date.as_bytes(), time.as_bytes()]),
            element(&[&number]),
        ],
    });
    for segment in &message.segments {
        let mut elements = segment.elements.clone();
        match &segment.tag {
            b"UNH" => elements[0][0] = b"1".to_vec(),
            b"UNT" => elements[1][0] = b"1".to_vec(),
            _ => {}
        }
        segments.push(Segment { tag: segment.tag, elements });
    }
    segments.push(Segment { tag: *b"UNZ", elements: vec![element(&[b"1"]), element(&[&number])] });
    segments
}

pub fn write_component(out: &mut Vec<u8>, component: &[u8]) {
    let mut rest = component;
    while let Some(at) = rest.iter().position(|b| matches!(b, b':' | b'+' | b'\'' | b'?')) {
        out.extend_from_slice(&rest[..at]);
        out.extend_from_slice(&[b'?', rest[at]]);
        rest = &rest[at + 1..];
    }
    out.extend_from_slice(rest);
}

pub fn write_segment(out: &mut Vec<u8>, segment: &Segment) {
    out.extend_from_slice(&segment.tag);
    for element in &segment.elements {
        out.push(b'+');
        for (place, component) in element.iter().enumerate() {
            if place > 0 {
                out.push(b':');
            }
            write_component(out, component);
        }
    }
    out.push(b'\'');
}

fn write(out: &mut Vec<u8>, decimal: u8, segments: &[Segment]) {
    out.extend_from_slice(&[b'U', b'N', b'A', b':', b'+', decimal, b'?', b' ', b'\'']);
    for segment in segments {
        write_segment(out, segment);
    }
}

fn relay(text: &[u8], hub: &[u8], owner: &[u8], moment: u64, number: u64) -> Result<Vec<u8>, Fault> {
    let (service, segments) = read(text)?;
    let messages = open(segments)?;
    let mut out = Vec::new();
    for (place, message) in messages.iter().enumerate() {
        let segments = wrap(hub, owner, moment, number + place as u64, message);
        write(&mut out, service.decimal, &segments);
    }
    Ok(out)
}

fn main() {
    relayed(|words, text| relay(text, words.hub.as_bytes(), words.owner.as_bytes(), words.moment, words.number));
}
