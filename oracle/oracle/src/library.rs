//! The port as a static library: its C functions (include/nurqeshil.h), and their numbers as the text of an answer.

use crate::bytes::hex;
use crate::records::{CONSTANTS, DEBUG, FUNCTIONS, PLACES, RECORD, TASKS, TYPES};
#[cfg(feature = "library")]
use crate::{functions::*, port::Reply, questions::Question, records};

/// The library's kinds of lookup, each at the place that is its number.
pub const KINDS: [&str; 26] = [
    "task", "program", "fb_type", "field", "array", "array_size", "user_fb", "constant", "get_i32", "get_u32", "get_i64",
    "get_u64", "get_f32", "get_f64", "get_str", "char_width", "function", "bytecode", "line", "line_entry", "variable",
    "function_name", "string_layout", "source_file", "enumeration", "enumeration_value",
];

/// The questions that the library has no function for.
pub const LEFT_OUT: [&str; 2] = ["utf8", "masked_header"];

/// What an answer has, in its order.
#[derive(Clone, Copy)]
enum Piece {
    /// So many numbers.
    Numbers(usize),
    /// One number, signed.
    Signed,
    /// So many bytes, eight to a number, low byte first.
    Bytes(usize),
    /// A part of the file: place and length.
    Part,
    /// A constant: its type, then eight bytes for types 0 to 5, a part for the others.
    Constant,
}

fn pieces(lookup: &str) -> &'static [Piece] {
    use Piece::*;
    match lookup {
        "task" => &[Numbers(9), Bytes(4)],
        "program" => &[Numbers(8)],
        "fb_type" | "field" => &[Numbers(2)],
        "array" | "user_fb" => &[Numbers(4)],
        "constant" => &[Constant],
        "get_i32" | "get_i64" => &[Signed],
        "get_str" | "bytecode" | "enumeration_value" => &[Part],
        "function" => &[Numbers(6)],
        "line" | "line_entry" => &[Numbers(5)],
        "variable" => &[Numbers(4), Part, Part],
        "function_name" => &[Numbers(1), Part],
        "string_layout" => &[Numbers(3)],
        "source_file" => &[Part, Bytes(32)],
        "enumeration" => &[Part, Numbers(1)],
        _ => &[Numbers(1)],
    }
}

struct Numbers<'a> {
    rest: std::slice::Iter<'a, u64>,
}

impl Numbers<'_> {
    fn next(&mut self) -> Option<u64> {
        self.rest.next().copied()
    }

    fn bytes(&mut self, count: usize) -> Option<String> {
        let mut bytes = Vec::new();
        while bytes.len() < count {
            bytes.extend_from_slice(&self.next()?.to_le_bytes());
        }
        bytes.truncate(count);
        Some(hex(&bytes))
    }

    fn part(&mut self, file: &[u8]) -> Option<String> {
        let at = usize::try_from(self.next()?).ok()?;
        let length = usize::try_from(self.next()?).ok()?;
        file.get(at..at.checked_add(length)?).map(hex)
    }

    fn piece(&mut self, file: &[u8], piece: Piece) -> Option<String> {
        match piece {
            Piece::Numbers(count) => {
                let numbers: Option<Vec<String>> = (0..count).map(|_| self.next().map(|n| n.to_string())).collect();
                Some(numbers?.join(" "))
            }
            Piece::Signed => self.next().map(|n| (n as i64).to_string()),
            Piece::Bytes(count) => self.bytes(count),
            Piece::Part => self.part(file),
            Piece::Constant => {
                let kind = self.next()?;
                let kept = if kind <= 5 { self.bytes(8) } else { self.part(file) };
                Some(format!("{kind} {}", kept?))
            }
        }
    }
}

/// The text of a refusal's number and values.
fn refusal(said: &[u64]) -> String {
    match said {
        [] => "no numbers".to_string(),
        [number] => format!("refused {number} -"),
        [number, values @ ..] => {
            let values: Vec<String> = values.iter().map(u64::to_string).collect();
            format!("refused {number} {}", values.join(" "))
        }
    }
}

/// The text of a lookup's answer.
pub fn text(file: &[u8], lookup: &str, said: &[u64]) -> String {
    let [0, rest @ ..] = said else { return refusal(said) };
    let mut numbers = Numbers { rest: rest.iter() };
    let texts: Option<Vec<String>> = pieces(lookup).iter().map(|piece| numbers.piece(file, *piece)).collect();
    match texts {
        Some(texts) if numbers.next().is_none() => texts.join(" "),
        _ => format!("not the numbers of an answer: {said:?}"),
    }
}

/// Where the code section's size is in a record.
const CODE_SIZE: usize = PLACES + 11;

/// The numbers of a file that loads: those of the record, and three for each of the six tags.
const LOADED: usize = RECORD + 18;

fn joined(numbers: &[u64]) -> String {
    numbers.iter().map(u64::to_string).collect::<Vec<_>>().join(" ")
}

/// Counts that are there if the number before them is 1.
fn counts(said: &[u64]) -> String {
    match said {
        [1, counts @ ..] => joined(counts),
        [0, counts @ ..] if counts.iter().all(|n| *n == 0) => "none".to_string(),
        _ => format!("not counts: {said:?}"),
    }
}

/// A tag's row in force, or none, and how many it replaced.
fn row(said: &[u64]) -> String {
    match said {
        [1, row, replaced] => format!("{row}+{replaced}"),
        [0, 0, replaced] => format!("none+{replaced}"),
        _ => format!("not a row: {said:?}"),
    }
}

/// The text of the questions on the header and on counts, from what loading answers. The header's fields that the library does
/// not answer (magic, the other three hashes, the reserved bytes) are taken from the file.
pub fn loaded_text(file: &[u8], lookup: &str, said: &[u64], content_hash: &str) -> String {
    if said.len() != LOADED || said[0] != 0 {
        return format!("not the numbers of a loaded file: {said:?}");
    }
    match lookup {
        "header" => {
            let magic = u32::from_le_bytes([file[0], file[1], file[2], file[3]]);
            let others = [&file[40..72], &file[72..104], &file[104..136]].map(hex).join(" ");
            let numbers = joined(&said[PLACES..TASKS]);
            format!("{magic} {} {content_hash} {others} {numbers} {}", joined(&said[1..PLACES]), hex(&file[218..256]))
        }
        "tasks" => joined(&said[TASKS..TYPES]),
        "types" => counts(&said[TYPES..CONSTANTS]),
        "constants" => said[CONSTANTS].to_string(),
        "code" => {
            let bytecode = said[CODE_SIZE].wrapping_sub(16 * said[FUNCTIONS]);
            format!("{} {bytecode}", said[FUNCTIONS])
        }
        "in_force" => said[RECORD..].chunks(3).map(row).collect::<Vec<_>>().join(" "),
        _ => counts(&said[DEBUG..RECORD]),
    }
}

#[cfg(feature = "library")]
mod linked {
    use super::*;
    use std::cell::Cell;

    /// Numbers that the library wrote, and the rest of the buffer as it was.
    fn numbers(put: impl Fn(*mut u64, usize) -> usize) -> Vec<u64> {
        const UNTOUCHED: u64 = 0x0123_4567_89ab_cdef;
        let mut out = [UNTOUCHED; 64];
        let count = put(out.as_mut_ptr(), out.len());
        assert!(count <= out.len() && out[count..].iter().all(|n| *n == UNTOUCHED), "numbers behind the answer");
        out[..count].to_vec()
    }

    // SAFETY, for each of these: the library reads `file` and writes at most as much as the buffer has room for.

    fn load(file: &[u8]) -> Vec<u64> {
        numbers(|out, room| unsafe { container_load(file.as_ptr(), file.len(), out, room) })
    }

    fn asked(file: &[u8], kind: u16, i: u16, j: u16) -> Vec<u64> {
        numbers(|out, room| unsafe { container_ask(file.as_ptr(), file.len(), kind, i, j, out, room) })
    }

    fn looked_up(file: &[u8], record: &[u64], kind: u16, i: u16, j: u16) -> Vec<u64> {
        numbers(|out, room| unsafe {
            container_lookup(file.as_ptr(), file.len(), record.as_ptr(), record.len(), kind, i, j, out, room)
        })
    }

    fn line(file: &[u8], function: u16, offset: u16) -> Vec<u64> {
        numbers(|out, room| unsafe { container_line(file.as_ptr(), file.len(), function, offset, out, room) })
    }

    /// A digest's text, or that of a refusal; a refusal leaves the digest's buffer as it was.
    fn digest(put: impl Fn(*mut u8, usize, *mut u64, usize) -> usize) -> String {
        const UNTOUCHED: [u8; 33] = [0xa5; 33];
        let bytes = Cell::new(UNTOUCHED);
        let said = numbers(|out, room| put(bytes.as_ptr().cast(), UNTOUCHED.len(), out, room));
        let bytes = bytes.get();
        match said[..] {
            [0] if bytes[32] == UNTOUCHED[32] => hex(&bytes[..32]),
            [0] => "a byte behind the digest".to_string(),
            _ if bytes != UNTOUCHED => format!("{}, and a digest", refusal(&said)),
            _ => refusal(&said),
        }
    }

    fn hash(bytes: &[u8]) -> String {
        digest(|digest, length, out, room| unsafe {
            container_hash(bytes.as_ptr(), bytes.len(), digest, length, out, room)
        })
    }

    fn content_hash(file: &[u8]) -> String {
        digest(|digest, length, out, room| unsafe {
            container_content_hash(file.as_ptr(), file.len(), digest, length, out, room)
        })
    }

    fn answer(file: &[u8], loaded: &[u64], q: &Question) -> String {
        let at = |n: usize| q.arguments.get(n).copied().unwrap_or(0) as usize;
        let said = match (q.lookup, kind(q.lookup)) {
            ("hash", _) => hash(&file[at(0)..][..at(1)]),
            (_, Some(kind)) => own(file, loaded, kind, q),
            (lookup, None) => loaded_text(file, lookup, loaded, &content_hash(file)),
        };
        format!("{}: {said}", q.text())
    }

    /// A lookup over the file's own record: all ways to it must agree.
    fn own(file: &[u8], loaded: &[u64], kind: u16, q: &Question) -> String {
        let (i, j) = (index(q, 0), index(q, 1));
        let said = asked(file, kind, i, j);
        if looked_up(file, loaded, kind, i, j) != said || looked_up(file, &loaded[..RECORD], kind, i, j) != said {
            return "container_lookup and container_ask differ".to_string();
        }
        if q.lookup == "line" && line(file, i, j) != said {
            return "container_line and container_ask differ".to_string();
        }
        text(file, q.lookup, &said)
    }

    fn kind(lookup: &str) -> Option<u16> {
        KINDS.iter().position(|name| *name == lookup).map(|kind| kind as u16)
    }

    fn index(q: &Question, n: usize) -> u16 {
        u16::try_from(q.arguments.get(n).copied().unwrap_or(0)).expect("an index of two bytes")
    }

    /// A lookup over another record; the numbers behind it are not looked at.
    fn over(file: &[u8], record: &records::Record, q: &Question) -> String {
        let kind = kind(q.lookup).expect("a kind of the library");
        let longer = [&record.0[..], &[u64::MAX]].concat();
        let said = looked_up(file, &record.0, kind, index(q, 0), index(q, 1));
        if looked_up(file, &longer, kind, index(q, 0), index(q, 1)) != said {
            return "a number behind the record was read".to_string();
        }
        text(file, q.lookup, &said)
    }

    /// Numbers that stand for no record, made from those of one, must have no answer.
    fn no_record(file: &[u8], loaded: &[u64]) -> Option<String> {
        let with = |places: &[usize], number: u64| {
            let mut numbers = loaded.to_vec();
            places.iter().for_each(|place| numbers[*place] = number);
            numbers
        };
        let wrong = [
            loaded[..RECORD - 1].to_vec(),
            with(&[0], 1),
            with(&[1], 1 << 16),
            with(&[2], 1 << 8),
            with(&[PLACES], 1 << 32),
            with(&[FUNCTIONS], 1 << 16),
            with(&[TYPES], 2),
            with(&[TYPES, TYPES + 1], 0).iter().enumerate().map(|(i, n)| if i == TYPES + 2 { 1 } else { *n }).collect(),
            with(&[DEBUG], 2),
            with(&[DEBUG], 0).iter().enumerate().map(|(i, n)| if i == RECORD - 1 { 1 } else { *n }).collect(),
            with(&[RECORD - 1], u64::MAX),
        ];
        let answered = wrong.iter().position(|numbers| !looked_up(file, numbers, 0, 0, 0).is_empty())?;
        Some(format!("numbers {answered} that stand for no record are answered\n"))
    }

    /// The listing; of a refused file the other functions must answer the same refusal.
    fn listing(file: &[u8], loaded: &[u64]) -> String {
        let mut out = vec![0u8; ROOM];
        let length = unsafe { container_list(file.as_ptr(), file.len(), out.as_mut_ptr(), out.len()) };
        let listing = String::from_utf8_lossy(&out[..length.min(ROOM)]).into_owned();
        if loaded.first() == Some(&0) {
            return no_record(file, loaded).unwrap_or(listing);
        }
        let refused = refusal(loaded);
        if listing != refused.clone() + "\n" || asked(file, 0, 0, 0) != loaded || content_hash(file) != refused {
            return format!("{listing}the others: {loaded:?}, {:?}, {}\n", asked(file, 0, 0, 0), content_hash(file));
        }
        listing
    }

    pub fn ask(file: &[u8], questions: &[Question]) -> Reply {
        let loaded = load(file);
        let mut answers: Vec<String> = questions.iter().map(|q| answer(file, &loaded, q)).collect();
        answers.extend(records::lines(file, Some(&|record, q| over(file, record, q))));
        Reply {
            listing: listing(file, &loaded),
            answers: Some(answers),
        }
    }

    /// A listing is shorter than this: five sections of less than 65,536 bytes each, at most nine characters to a byte (a
    /// constant of four bytes lists eight kept ones), and the room that the library asks for behind it.
    const ROOM: usize = 4 << 20;
}

#[cfg(feature = "library")]
pub use linked::ask;

#[cfg(test)]
mod tests {
    use super::*;
    use crate::questions::LOOKUPS;

    #[test]
    fn numbers_as_text() {
        let file: Vec<u8> = (0..=255).collect();
        assert_eq!(text(&file, "get_i32", &[0, -3i64 as u64]), "-3");
        assert_eq!(text(&file, "get_str", &[0, 16, 2]), "1011");
        assert_eq!(text(&file, "get_str", &[0, 256, 0]), "-");
        assert_eq!(text(&file, "get_str", &[9, 5]), "refused 9 5");
        assert_eq!(text(&file, "constant", &[0, 0, 270]), "0 0e01000000000000");
        assert_eq!(text(&file, "constant", &[0, 6, 107, 2]), "6 6b6c");
        assert_eq!(text(&file, "task", &[0, 1, 2, 0, 4, 5, 6, 7, 8, 9, 0x0403_0201]), "1 2 0 4 5 6 7 8 9 01020304");
        assert_eq!(text(&file, "array", &[16]), "refused 16 -");
        assert_eq!(text(&file, "array", &[]), "no numbers");
        assert!(text(&file, "array", &[0, 1, 2, 3]).starts_with("not the numbers"));
        assert!(text(&file, "array", &[0, 1, 2, 3, 4, 5]).starts_with("not the numbers"));
        assert!(text(&file, "get_str", &[0, 255, 2]).starts_with("not the numbers"));
    }

    #[test]
    fn loaded_as_text() {
        let file: Vec<u8> = (0..=255).collect();
        let mut said: Vec<u64> = (0..LOADED as u64).collect();
        said[CODE_SIZE] = 400;
        said[TYPES] = 1;
        said[DEBUG..].fill(0);
        said[RECORD..RECORD + 6].copy_from_slice(&[1, 7, 2, 0, 0, 0]);
        assert_eq!(loaded_text(&file, "tasks", &said, "-"), "29 30 31");
        assert_eq!(loaded_text(&file, "types", &said, "-"), "33 34 35");
        assert_eq!(loaded_text(&file, "constants", &said, "-"), "36");
        assert_eq!(loaded_text(&file, "code", &said, "-"), "24 16");
        assert_eq!(loaded_text(&file, "debug", &said, "-"), "none");
        assert_eq!(loaded_text(&file, "in_force", &said, "-"), "7+2 none+0 none+0 none+0 none+0 none+0");
        let header = loaded_text(&file, "header", &said, "hash");
        assert!(header.starts_with("50462976 1 2 3 hash 2829"));
        assert!(header.contains(" 4 5 6 7 8 9 10 11 12 13 14 400 16 17 18 19 "));
        assert!(loaded_text(&file, "tasks", &[5], "-").starts_with("not the numbers"));
    }

    /// Each answer of the Rust has as many words as the pieces of its lookup.
    #[test]
    fn pieces_fit_the_answers() {
        let words = |piece: &Piece| match piece {
            Piece::Numbers(count) => *count,
            Piece::Constant => 2,
            _ => 1,
        };
        let mut seen = std::collections::BTreeSet::new();
        for index in 0..300 {
            let file = crate::generate::file(1, index).bytes;
            let reading = crate::reading::read(&file);
            for q in crate::questions::questions(&file, &reading, false) {
                let line = crate::answers::answer(&file, &reading, &q);
                let (_, said) = line.split_once(": ").expect("a colon");
                if !KINDS.contains(&q.lookup) || said.starts_with("refused") {
                    continue;
                }
                let expected: usize = pieces(q.lookup).iter().map(words).sum();
                assert_eq!(said.split(' ').count(), expected, "{line}");
                seen.insert(q.lookup);
            }
        }
        assert_eq!(seen.len(), KINDS.len());
    }

    /// Every question is a kind, or one of those that are answered otherwise or left out.
    #[test]
    fn every_lookup_has_a_way() {
        let others = ["hash", "header", "tasks", "types", "constants", "code", "debug", "in_force"];
        for lookup in LOOKUPS {
            let ways = [KINDS.contains(&lookup), others.contains(&lookup), LEFT_OUT.contains(&lookup)];
            assert_eq!(ways.iter().filter(|way| **way).count(), 1, "{lookup}");
        }
    }
}
