//! The five sections as bytes, of every shape that document 01 describes.

use ironplc_container::type_section::ArrayDescriptor;

use crate::prng::Prng;

/// A section's bytes, and where its counts stand (place and width), so that one can be put at an edge.
#[derive(Clone, Default)]
pub struct Section {
    pub bytes: Vec<u8>,
    pub counts: Vec<(usize, usize)>,
}

/// What to make: `bad` puts one fault in; `big` asks for many entries.
#[derive(Clone, Copy, Default)]
pub struct Wish {
    pub bad: bool,
    pub big: bool,
}

impl Section {
    fn count(&mut self, value: usize, width: usize) {
        self.counts.push((self.bytes.len(), width));
        self.bytes.extend_from_slice(&(value as u32).to_le_bytes()[..width]);
    }

    fn u8(&mut self, value: u8) {
        self.bytes.push(value);
    }

    fn u16(&mut self, value: u16) {
        self.bytes.extend_from_slice(&value.to_le_bytes());
    }

    fn u32(&mut self, value: u32) {
        self.bytes.extend_from_slice(&value.to_le_bytes());
    }

    fn put(&mut self, bytes: &[u8]) {
        self.bytes.extend_from_slice(bytes);
    }
}

fn how_many(p: &mut Prng, wish: Wish, most: usize) -> usize {
    if wish.big {
        return 1 + p.below(most);
    }
    match p.below(10) {
        0..=2 => 0,
        3..=8 => 1 + p.below(3),
        _ => 4 + p.below(6),
    }
}

/// The entry to spoil, if one is to be spoiled.
fn spoiled(p: &mut Prng, wish: Wish, count: usize) -> usize {
    if wish.bad {
        p.below(count)
    } else {
        usize::MAX
    }
}

/// A number above `top`, at its edge or anywhere.
fn above(p: &mut Prng, top: u8) -> u8 {
    if p.chance(50) {
        top + 1
    } else {
        top + 1 + p.below(255 - top as usize) as u8
    }
}

pub fn tasks(p: &mut Prng, wish: Wish) -> Section {
    let mut s = Section::default();
    let count = how_many(p, wish, 900).max(wish.bad as usize);
    let programs = how_many(p, wish, 1500);
    s.count(count, 2);
    s.count(programs, 2);
    s.u16(p.u16());
    let bad = spoiled(p, wish, count);
    for i in 0..count {
        s.u16(p.u16());
        s.u16(p.u16());
        let kind = if i == bad { above(p, 2) } else { p.below(3) as u8 };
        s.u8(kind);
        s.u8(p.byte());
        s.put(&p.u64().to_le_bytes());
        s.u16(p.u16());
        s.put(&p.u64().to_le_bytes());
        s.u16(p.u16());
        s.u16(p.u16());
        let reserved = p.bytes(4);
        s.put(&reserved);
    }
    for _ in 0..8 * programs {
        s.u16(p.u16());
    }
    s
}

/// An array entry: mostly with a stride that is taken, elements around the size's overflow.
fn array(p: &mut Prng, s: &mut Section, bad: bool) {
    let kind = match p.below(4) {
        0 => 6,
        1 => 7,
        2 => p.below(12) as u8,
        _ => p.byte(),
    };
    let extra = p.u16();
    let natural = ArrayDescriptor::natural_stride(kind, extra);
    let is_string = kind == 6 || kind == 7;
    let stride = match (bad, is_string) {
        (false, false) => natural,
        (false, true) if p.chance(50) => natural,
        (false, true) => natural.saturating_add(p.u32()),
        (true, true) if p.chance(40) => natural - 1,
        (true, true) if p.chance(40) => 6 + extra as u32 - (kind == 6 || extra == 0) as u32,
        (true, true) => p.below(natural as usize) as u32,
        (true, false) if p.chance(60) => natural.wrapping_add(p.pick(&[u32::MAX, 1])),
        (true, false) => p.pick(&[0, 1, 7, 9, 16, u32::MAX]),
    };
    let edge = u32::MAX / stride.max(1);
    let elements = match p.below(4) {
        0 => edge,
        1 => edge.saturating_add(1),
        _ => p.u32(),
    };
    s.u8(kind);
    s.u8(p.byte());
    s.u32(elements);
    s.u16(extra);
    s.u32(stride);
}

pub fn types(p: &mut Prng, wish: Wish) -> Section {
    let mut s = Section::default();
    let in_fields = wish.bad && p.chance(50);
    let fbs = how_many(p, wish, 60).max(in_fields as usize);
    s.count(fbs, 2);
    let bad_fb = if in_fields { p.below(fbs) } else { usize::MAX };
    for i in 0..fbs {
        s.u16(p.u16());
        let fields = if p.chance(1) { 255 } else { p.below(5) }.max((i == bad_fb) as usize);
        s.count(fields, 1);
        s.u8(p.byte());
        let bad_field = if i == bad_fb { p.below(fields) } else { usize::MAX };
        for j in 0..fields {
            let kind = if j == bad_field { above(p, 10) } else { p.below(11) as u8 };
            s.u8(kind);
            s.u8(p.byte());
            s.u16(p.u16());
        }
    }
    let in_arrays = wish.bad && !in_fields;
    let arrays = how_many(p, wish, 2000).max(in_arrays as usize);
    s.count(arrays, 2);
    let bad_array = if in_arrays { p.below(arrays) } else { usize::MAX };
    for i in 0..arrays {
        array(p, &mut s, i == bad_array);
    }
    match p.below(10) {
        0 => {}
        1 => s.u8(p.byte()),
        _ => {
            let users = how_many(p, wish, 1500);
            s.count(users, 2);
            for _ in 0..users {
                let entry = p.bytes(8);
                s.put(&entry);
            }
        }
    }
    s
}

pub fn constants(p: &mut Prng, wish: Wish) -> Section {
    let mut s = Section::default();
    let count = how_many(p, wish, 3000).max(wish.bad as usize);
    s.count(count, 2);
    let bad = spoiled(p, wish, count);
    let long = wish.big && p.chance(40);
    for i in 0..count {
        if long && s.bytes.len() > 40_000 {
            s.bytes[..2].copy_from_slice(&(i as u16).to_le_bytes());
            break;
        }
        let mut kind = p.below(8) as u8;
        let mut size = match kind {
            6 | 7 if long => p.below(20_000),
            6 | 7 => p.below(12),
            0 | 1 | 4 if p.chance(70) => 4,
            2 | 3 | 5 if p.chance(70) => 8,
            _ => p.below(9),
        };
        if i == bad && p.chance(50) {
            kind = above(p, 7);
        } else if i == bad {
            kind = p.below(6) as u8;
            size = if p.chance(60) { 9 } else { 9 + p.below(300) };
        }
        s.u8(kind);
        s.u8(p.byte());
        s.count(size, 2);
        let value = p.bytes(size);
        s.put(&value);
    }
    s
}

/// The code section and its function count. A quarter of the ranges are at an edge of the bytecode or beyond.
pub fn code(p: &mut Prng, wish: Wish) -> (Section, u16) {
    let mut s = Section::default();
    let functions = how_many(p, wish, 2000);
    let bytecode = if wish.big { p.below(30_000) } else { p.below(40) };
    for _ in 0..functions {
        let start = p.below(bytecode + 1);
        let (offset, length) = match p.below(8) {
            0 => (bytecode as u32, 0),
            1 => (bytecode as u32 + 1, 0),
            2 => (start as u32, (bytecode - start) as u32 + p.below(2) as u32),
            3 => (p.u32(), p.u32()),
            _ => (start as u32, p.below((bytecode - start).min(300) + 1) as u32),
        };
        s.u16(p.u16());
        s.u32(offset);
        s.u32(length);
        s.u16(p.u16());
        s.u16(p.u16());
        s.u16(p.u16());
    }
    let body = p.bytes(bytecode);
    s.put(&body);
    (s, functions as u16)
}

/// Good sequences at the edges of Unicode's table.
const GOOD: [&[u8]; 17] = [
    b"\x00", b"a", b"Z_9", b"\x7F", b"\xC2\x80", b"\xC3\xA4", b"\xDF\xBF", b"\xE0\xA0\x80", b"\xE0\xBF\xBF",
    b"\xE1\x80\x80", b"\xED\x80\x80", b"\xED\x9F\xBF", b"\xEE\x80\x80", b"\xEF\xBF\xBF", b"\xF0\x90\x80\x80",
    b"\xF3\xBF\xBF\xBF", b"\xF4\x8F\xBF\xBF",
];

/// Bad ones, each next to an edge.
const BAD: [&[u8]; 22] = [
    b"\x80", b"\xBF", b"\xC0\x80", b"\xC1\xBF", b"\xC2", b"\xC2\x7F", b"\xDF\xC0", b"\xE0\x9F\xBF", b"\xE0\xA0",
    b"\xE0\xA0\x7F", b"\xE1\x80\xC0", b"\xED\xA0\x80", b"\xED\xBF\xBF", b"\xEF\xBF", b"\xF0\x8F\xBF\xBF",
    b"\xF0\x90\x80", b"\xF1\x80\x80\xC0", b"\xF1\x80\x7F\x80", b"\xF4\x90\x80\x80", b"\xF5\x80\x80\x80", b"\xF8",
    b"\xFF",
];

fn text(p: &mut Prng, bad: bool, most: usize) -> Vec<u8> {
    let mut text = Vec::new();
    let wanted = if p.chance(2) { most } else { p.below(12.min(most)) };
    while text.len() < wanted {
        if p.chance(60) {
            text.push(b'a' + p.below(26) as u8);
        } else {
            let good = p.pick(&GOOD);
            text.extend_from_slice(good);
        }
    }
    if text.len() > most {
        text.truncate(most);
        while std::str::from_utf8(&text).is_err() {
            text.pop();
        }
    }
    if bad {
        text.truncate(most.saturating_sub(4));
        while std::str::from_utf8(&text).is_err() {
            text.pop();
        }
        let piece = p.pick(&BAD);
        let at = if p.chance(40) { text.len() } else { 0 };
        text.splice(at..at, piece.iter().copied());
    }
    text
}

fn name(p: &mut Prng, s: &mut Section, bad: bool) {
    let text = text(p, bad, 255);
    s.count(text.len(), 1);
    s.put(&text);
}

fn line_table(p: &mut Prng, s: &mut Section, count: usize) {
    let mut keys: Vec<(u16, u16)> = Vec::new();
    for _ in 0..count {
        let again = !keys.is_empty() && p.chance(25);
        let key = if again {
            let at = p.below(keys.len());
            (keys[at].0, if p.chance(50) { keys[at].1 } else { p.u16() })
        } else if p.chance(70) {
            (p.below(4) as u16, p.below(40) as u16)
        } else {
            (p.u16(), p.u16())
        };
        keys.push(key);
    }
    if p.chance(75) {
        keys.sort_unstable();
        if count > 1 && p.chance(10) {
            let at = p.below(count - 1);
            keys.swap(at, at + 1);
        }
    }
    for (function, offset) in keys {
        s.u16(function);
        s.u16(offset);
        s.u16(p.u16());
        s.u16(p.u16());
        s.u16(p.u16());
    }
}

/// One payload; `bad` spoils a text in it.
fn payload(p: &mut Prng, tag: u16, wish: Wish) -> Section {
    let mut s = Section::default();
    let has_text = matches!(tag, 2 | 3 | 6 | 9);
    let bad = wish.bad && has_text;
    let some = how_many(p, wish, if tag == 1 { 5000 } else { 1200 }).max(bad as usize);
    let count = if tag == 1 { some + p.below(6) } else { some };
    s.count(count, 2);
    if tag == 1 {
        line_table(p, &mut s, count);
        return s;
    }
    let spoil = if bad { p.below(count) } else { usize::MAX };
    for i in 0..count {
        let here = i == spoil;
        match tag {
            2 => {
                let head = p.bytes(6);
                s.put(&head);
                let first = p.chance(50);
                name(p, &mut s, here && first);
                name(p, &mut s, here && !first);
            }
            3 => {
                s.u16(p.u16());
                name(p, &mut s, here);
            }
            4 => {
                s.u16(p.u16());
                s.u32(p.u32());
                s.u16(p.u16());
            }
            6 => {
                let path = text(p, here, if wish.big { 9_000 } else { 300 });
                s.count(path.len(), 2);
                s.put(&path);
                let hash = p.bytes(32);
                s.put(&hash);
            }
            _ => {
                let values = if here { 1 } else { p.below(4) };
                let in_name = p.chance(50);
                name(p, &mut s, here && in_name);
                s.count(values, 2);
                for _ in 0..values {
                    name(p, &mut s, here && !in_name);
                }
            }
        }
    }
    s
}

/// The debug section: tables in any order, twice, unknown ones between; a fault is a bad text or an unknown table that does
/// not fit.
pub fn debug(p: &mut Prng, wish: Wish) -> Section {
    let mut s = Section::default();
    let most = if p.chance(20) { 12 } else { 6 };
    let rows = p.below(most).max(wish.bad as usize).max(wish.big as usize);
    s.count(rows, 2);
    let bad = spoiled(p, wish, rows);
    let big = if wish.big { p.below(rows) } else { usize::MAX };
    let mut payloads = Vec::new();
    for i in 0..rows {
        let known = p.pick(&[1, 1, 1, 2, 3, 4, 6, 9]);
        let unknown = p.pick(&[0, 5, 7, 8, 10, 256, 257, 0xFFFF]);
        let with_text = p.pick(&[2, 3, 6, 9]);
        let tag: u16 = if i == bad && p.chance(80) {
            with_text
        } else if i == big || p.chance(80) {
            known
        } else {
            unknown
        };
        let is_known = matches!(tag, 1 | 2 | 3 | 4 | 6 | 9);
        let own = Wish { bad: i == bad, big: i == big };
        let one = if is_known {
            payload(p, tag, own)
        } else {
            let size = p.below(20);
            Section { bytes: p.bytes(size), counts: Vec::new() }
        };
        s.u16(tag);
        s.u16(p.u16());
        let stored = match (is_known, i == bad) {
            (true, _) if p.chance(30) => p.u32(),
            (false, true) => one.bytes.len() as u32 + p.pick(&[1, 2, 1000, 0x7FFF_0000, 0xFFFF_FF00]),
            _ => one.bytes.len() as u32,
        };
        s.u32(stored);
        payloads.push(one);
    }
    for one in payloads {
        let at = s.bytes.len();
        s.counts.extend(one.counts.iter().map(|(place, width)| (at + place, *width)));
        s.put(&one.bytes);
    }
    if p.chance(20) {
        let size = 1 + p.below(10);
        let behind = p.bytes(size);
        s.put(&behind);
    }
    s
}
