//! Container files from a seed: file `index` of run `seed` is always the same bytes.

use ironplc_container::integrity::{content_hash, Content};

use crate::bytes::*;
use crate::prng::Prng;
use crate::reading::LIMIT;
use crate::sections::{self, Section, Wish};

pub struct Made {
    pub kind: &'static str,
    pub bytes: Vec<u8>,
}

/// The sections in file order, with the place of each pair in the header.
const PAIRS: [usize; 5] = [TASKS, TYPES, CONSTANTS, CODE, DEBUG];
const CODE_SECTION: usize = 3;
const DEBUG_SECTION: usize = 4;

#[derive(Clone, Copy, PartialEq)]
enum Hashed {
    No,
    Right,
    Wrong,
}

struct Plan {
    sections: [Section; 5],
    functions: u16,
}

fn plan(p: &mut Prng, bad: [bool; 5], big: Option<usize>) -> Plan {
    let wish = |i: usize| Wish {
        bad: bad[i],
        big: big == Some(i),
    };
    let tasks = sections::tasks(p, wish(0));
    let types = sections::types(p, wish(1));
    let constants = sections::constants(p, wish(2));
    let (code, functions) = sections::code(p, wish(3));
    let debug = sections::debug(p, wish(4));
    Plan {
        sections: [tasks, types, constants, code, debug],
        functions,
    }
}

/// A header with every field filled; no section has a place yet.
fn header(p: &mut Prng, functions: u16) -> Vec<u8> {
    let mut h = vec![0u8; HEADER];
    put(&mut h, 0, &0x4950_4C43u32.to_le_bytes());
    put(&mut h, 4, &4u16.to_le_bytes());
    h[6] = p.byte();
    h[7] = (p.byte() & !4) | if p.chance(85) { 4 } else { 0 };
    if p.chance(30) {
        let reserved = p.bytes(32);
        put(&mut h, 40, &reserved);
    }
    if p.chance(50) {
        let layout = p.bytes(32);
        put(&mut h, 104, &layout);
    }
    if p.chance(50) {
        let signatures = p.bytes(16);
        put(&mut h, 136, &signatures);
    }
    let runtime = p.bytes(26);
    put(&mut h, 192, &runtime);
    put(&mut h, 208, &functions.to_le_bytes());
    if p.chance(40) {
        let reserved = p.bytes(38);
        put(&mut h, 218, &reserved);
    }
    h
}

fn place(file: &mut [u8], section: usize, offset: u32, size: u32) {
    put(file, PAIRS[section], &offset.to_le_bytes());
    put(file, PAIRS[section] + 4, &size.to_le_bytes());
}

fn offset_of(file: &[u8], section: usize) -> usize {
    u32_at(file, PAIRS[section]) as usize
}

fn size_of(file: &[u8], section: usize) -> usize {
    u32_at(file, PAIRS[section] + 4) as usize
}

/// The sections laid out: in any order, with gaps, inside the bytecode of another, longer than what they hold, or absent.
fn lay_out(p: &mut Prng, mut plan: Plan) -> Vec<u8> {
    let mut inside = [None; 5];
    if p.chance(12) {
        let guest = p.pick(&[0, 1, 2, 4]);
        let at = plan.sections[CODE_SECTION].bytes.len();
        let bytes = plan.sections[guest].bytes.clone();
        plan.sections[CODE_SECTION].bytes.extend_from_slice(&bytes);
        inside[guest] = Some(at);
    }
    let mut order = [0, 1, 2, 3, 4];
    if p.chance(30) {
        for i in (1..5).rev() {
            order.swap(i, p.below(i + 1));
        }
    }
    let mut file = header(p, plan.functions);
    for section in order {
        if inside[section].is_some() {
            continue;
        }
        if p.chance(15) {
            let size = 1 + p.below(20);
            let gap = p.bytes(size);
            file.extend_from_slice(&gap);
        }
        let bytes = &plan.sections[section].bytes;
        let (at, size) = (file.len() as u32, bytes.len() as u32);
        place(&mut file, section, at, size);
        file.extend_from_slice(bytes);
    }
    for (section, at) in inside.iter().enumerate() {
        if let Some(at) = at {
            let offset = offset_of(&file, CODE_SECTION) + at;
            place(&mut file, section, offset as u32, plan.sections[section].bytes.len() as u32);
        }
    }
    if p.chance(20) {
        let size = 1 + p.below(30);
        let behind = p.bytes(size);
        file.extend_from_slice(&behind);
    }
    stretch(p, &mut file);
    leave_out(p, &mut file);
    file
}

/// Some sections reach over what stands behind them, up to the file's end: trailing bytes are accepted.
fn stretch(p: &mut Prng, file: &mut [u8]) {
    for section in 0..5 {
        if !p.chance(8) {
            continue;
        }
        let room = file.len() - offset_of(file, section) - size_of(file, section);
        let more = if p.chance(40) { room } else { p.below(room + 1) };
        let size = size_of(file, section) + more;
        place(file, section, offset_of(file, section) as u32, size as u32);
    }
}

/// Types and debug absent: of size 0 with any offset.
fn leave_out(p: &mut Prng, file: &mut [u8]) {
    for section in [1, DEBUG_SECTION] {
        if p.chance(12) {
            let end = file.len() as u32;
            let offset = p.pick(&[0, 255, 256, end, end + 1, u32::MAX]);
            place(file, section, offset, 0);
        }
    }
}

/// A section's bytes if it lies in the file behind the header.
fn part(file: &[u8], section: usize) -> Option<&[u8]> {
    let (offset, size) = (offset_of(file, section), size_of(file, section));
    if size == 0 {
        return Some(&[]);
    }
    if offset < HEADER {
        return None;
    }
    file.get(offset..offset + size)
}

fn hash_in(file: &mut [u8]) {
    let header: [u8; HEADER] = file[..HEADER].try_into().expect("256 bytes");
    let parts: Vec<&[u8]> = (0..4).map(|s| part(file, s).unwrap_or(&[])).collect();
    let hash = content_hash(&Content {
        header: &header,
        task_table: parts[0],
        type_section: parts[1],
        const_section: parts[2],
        code_section: parts[3],
    });
    put(file, 8, &hash);
}

/// Both hashes. The debug hash stands outside the content hash's mask, so it comes first.
fn hashes(p: &mut Prng, file: &mut [u8], content: Hashed) {
    let debug = match p.below(20) {
        0..=7 => Hashed::No,
        8..=16 => Hashed::Right,
        _ => Hashed::Wrong,
    };
    if debug != Hashed::No {
        let mut hash = *blake3::hash(part(file, DEBUG_SECTION).unwrap_or(&[])).as_bytes();
        if debug == Hashed::Wrong {
            spoil_hash(p, &mut hash);
        }
        put(file, 72, &hash);
    }
    if content != Hashed::No {
        hash_in(file);
        if content == Hashed::Wrong {
            let mut hash: [u8; 32] = file[8..40].try_into().expect("32 bytes");
            spoil_hash(p, &mut hash);
            put(file, 8, &hash);
        }
    }
}

/// A hash that is wrong in one bit, or has one byte only.
fn spoil_hash(p: &mut Prng, hash: &mut [u8; 32]) {
    let at = p.pick(&[0, 1, 15, 16, 30, 31]);
    if p.chance(30) {
        *hash = [0; 32];
    }
    hash[at] ^= 1 << p.below(8);
}

fn some_hash(p: &mut Prng) -> Hashed {
    match p.below(20) {
        0..=8 => Hashed::No,
        9..=18 => Hashed::Right,
        _ => Hashed::Wrong,
    }
}

/// A directory entry put elsewhere: the header, the edges, the end, another section's place, anywhere.
fn move_section(p: &mut Prng, file: &mut [u8]) {
    let section = p.below(5);
    let end = file.len() as u32;
    let (offset, size) = (offset_of(file, section) as u32, size_of(file, section) as u32);
    let other = p.below(5);
    let inside = 256 + p.below(file.len() - 255) as u32;
    let (offset, size) = match p.below(12) {
        0 => (p.pick(&[0, 1, 128, 254, 255]), size),
        1 => (256, size),
        2 => (end.wrapping_sub(size), size),
        3 => (end.wrapping_sub(size).wrapping_add(1), size),
        4 => (p.pick(&[end, end - 1, end + 1, u32::MAX, u32::MAX - 255, 0x8000_0000]), size),
        5 => (offset, p.pick(&[0, 1, 2, u32::MAX, end, end.saturating_sub(offset)])),
        6 => (offset, end.saturating_sub(offset).wrapping_add(1)),
        7 => (offset_of(file, other) as u32, size_of(file, other) as u32),
        8 => (p.pick(&[0, 255, 256, end, end + 1]), 0),
        // offset and size that end inside, were their sum cut to 32 bits
        9 => (offset, inside.wrapping_sub(offset)),
        10 => (u32::MAX - 255 - p.below(300) as u32, p.below(600) as u32),
        _ => (inside, p.below(file.len()) as u32),
    };
    place(file, section, offset, size);
}

/// A count at an edge: none, one fewer, one more, the greatest.
fn edge_count(p: &mut Prng, plan: &mut Plan) {
    let section = p.below(5);
    if section == CODE_SECTION {
        plan.functions = p.pick(&[0, 1, plan.functions.wrapping_sub(1), plan.functions.wrapping_add(1), 4096, 0xFFFF]);
        return;
    }
    let s = &mut plan.sections[section];
    let (at, width) = s.counts[p.below(s.counts.len())];
    let old = if width == 1 { s.bytes[at] as u16 } else { u16_at(&s.bytes, at) };
    let new = p.pick(&[0, old.wrapping_sub(1), old.wrapping_add(1), old.wrapping_add(1), 0xFFFF]);
    put(&mut s.bytes, at, &new.to_le_bytes()[..width]);
}

fn flip(p: &mut Prng, file: &mut [u8]) {
    for _ in 0..1 + p.below(4) {
        let at = match p.below(4) {
            0 => p.below(8),
            1 => 136 + p.below(82),
            _ => p.below(file.len()),
        };
        let bit = 1 << p.below(8);
        let any = p.byte();
        file[at] = if p.chance(60) { file[at] ^ bit } else { any };
    }
}

fn cut(p: &mut Prng, file: &mut Vec<u8>) {
    let keep = match p.below(4) {
        0 => p.pick(&[0, 1, 7, 8, 255, 256, 257]),
        1 => file.len() - 1,
        _ => p.below(file.len()),
    };
    file.truncate(keep);
}

/// All sections at one place, over all of the file behind the header: six zero bytes are an empty table of each kind. At
/// 65,536 bytes the content hash runs over 261,376 bytes.
fn stacked(p: &mut Prng, length: usize) -> Vec<u8> {
    let mut file = header(p, 0);
    file.resize(HEADER + 6, 0);
    while file.len() < length {
        file.push(p.next() as u8);
    }
    let size = (file.len() - HEADER) as u32;
    for section in 0..5 {
        place(&mut file, section, HEADER as u32, size);
    }
    file
}

/// A file of exactly this length: what is missing stands behind all sections, or in a long string, the bytecode or an
/// unknown debug table.
fn to_length(p: &mut Prng, length: usize) -> Vec<u8> {
    let no = [false; 5];
    let plan = plan(p, no, None);
    let mut file = lay_out(p, plan);
    let more = length.saturating_sub(file.len());
    let at = file.len() as u32;
    match p.below(4) {
        0 => {
            let mut s = vec![1, 0, 6, 1];
            s.extend_from_slice(&(more.saturating_sub(6) as u16).to_le_bytes());
            file.extend_from_slice(&s);
            place(&mut file, 2, at, more as u32);
        }
        1 => {
            put(&mut file, 208, &[0, 0]);
            place(&mut file, CODE_SECTION, at, more as u32);
        }
        2 => {
            let mut s = vec![1, 0, 5, 0, 0, 0];
            s.extend_from_slice(&(more.saturating_sub(10) as u32).to_le_bytes());
            file.extend_from_slice(&s);
            place(&mut file, DEBUG_SECTION, at, more as u32);
        }
        _ => {}
    }
    while file.len() < length {
        file.push(p.next() as u8);
    }
    file
}

fn at_limit(p: &mut Prng) -> Vec<u8> {
    let length = p.pick(&[LIMIT - 1, LIMIT, LIMIT, LIMIT + 1, LIMIT + 1, 2 * LIMIT]);
    let mut file = if p.chance(40) { stacked(p, length) } else { to_length(p, length) };
    let hash = some_hash(p);
    hashes(p, &mut file, hash);
    file
}

/// Another magic or version in a file that is good otherwise, hashed anew or not.
fn other_start(p: &mut Prng, file: &mut [u8]) {
    let starts: [[u8; 6]; 9] = [
        [0x43, 0x4C, 0x50, 0x49, 3, 0],
        [0x43, 0x4C, 0x50, 0x49, 5, 0],
        [0x43, 0x4C, 0x50, 0x49, 0, 4],
        [0x43, 0x4C, 0x50, 0x49, 4, 1],
        [0x43, 0x4C, 0x50, 0x49, 0, 0],
        [0x49, 0x50, 0x4C, 0x43, 4, 0],
        [0x49, 0x50, 0x4C, 0x43, 5, 0],
        [0x43, 0x4C, 0x50, 0x48, 4, 0],
        [0x42, 0x4C, 0x50, 0x49, 4, 0],
    ];
    let start = p.pick(&starts);
    put(file, 0, &start);
}

/// Files of a few bytes, with and without a header's start.
fn short(p: &mut Prng) -> Vec<u8> {
    let size = p.pick(&[0, 1, 4, 6, 255, 256, 257, 261, 262, 300]);
    let mut file = if p.chance(50) { vec![0; size] } else { p.bytes(size) };
    if size >= 6 && p.chance(80) {
        put(&mut file, 0, &0x4950_4C43u32.to_le_bytes());
        if p.chance(80) {
            put(&mut file, 4, &4u16.to_le_bytes());
        }
    }
    file
}

fn one_bad(p: &mut Prng) -> [bool; 5] {
    let mut bad = [false; 5];
    bad[p.pick(&[0, 1, 2, 4])] = true;
    bad
}

pub fn file(seed: u64, index: u64) -> Made {
    let p = &mut Prng::of_file(seed, index);
    let big = if p.chance(3) { Some(p.below(5)) } else { None };
    let none = [false; 5];
    let hash = some_hash(p);
    let (kind, bytes) = match p.below(100) {
        0..=36 => {
            let plan = plan(p, none, big);
            ("valid", finish(p, plan, hash, 0))
        }
        37..=42 => {
            let mut bad = none;
            bad[DEBUG_SECTION] = true;
            let plan = plan(p, bad, None);
            ("bad text", finish(p, plan, Hashed::Right, 0))
        }
        43..=54 => {
            let bad = one_bad(p);
            let plan = plan(p, bad, big);
            ("bad entry", finish(p, plan, hash, 0))
        }
        55..=64 => {
            let mut plan = plan(p, none, big);
            edge_count(p, &mut plan);
            ("count", finish(p, plan, hash, 0))
        }
        65..=75 => {
            let plan = plan(p, none, big);
            let moves = 1 + p.below(2);
            ("moved", finish(p, plan, hash, moves))
        }
        76..=81 => {
            let bad = [p.chance(40), p.chance(40), p.chance(40), false, p.chance(40)];
            let mut plan = plan(p, bad, big);
            if p.chance(50) {
                edge_count(p, &mut plan);
            }
            let moves = p.below(3);
            ("several", finish(p, plan, hash, moves))
        }
        82 => {
            let plan = plan(p, none, big);
            let mut file = finish(p, plan, Hashed::No, 0);
            other_start(p, &mut file);
            if p.chance(50) {
                hash_in(&mut file);
            }
            ("other start", file)
        }
        83..=89 => {
            let plan = plan(p, none, big);
            let mut file = finish(p, plan, Hashed::No, 0);
            flip(p, &mut file);
            if p.chance(30) {
                hash_in(&mut file);
            }
            ("flipped", file)
        }
        90..=95 => {
            let plan = plan(p, none, big);
            let mut file = finish(p, plan, hash, 0);
            cut(p, &mut file);
            ("cut", file)
        }
        96..=97 => {
            let length = if p.chance(90) { 262 + p.below(5000) } else { p.below(LIMIT) };
            let mut file = stacked(p, length);
            hashes(p, &mut file, hash);
            ("stacked", file)
        }
        98 => ("limit", at_limit(p)),
        _ => ("short", short(p)),
    };
    Made { kind, bytes }
}

fn finish(p: &mut Prng, plan: Plan, hash: Hashed, moves: usize) -> Vec<u8> {
    let mut file = lay_out(p, plan);
    for _ in 0..moves {
        move_section(p, &mut file);
    }
    hashes(p, &mut file, hash);
    file
}
