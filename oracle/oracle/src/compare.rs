//! Both sides on the files of a run; the Rust's side on stored replies.

use std::collections::BTreeMap;
use std::fs;

use crate::answers::{answer, is_sorted};
use crate::bytes::{from_hex, hex};
use crate::generate::{self, Made};
use crate::listing::listing;
use crate::port::{self, Port};
use crate::questions::{questions, Question};
use crate::reading::{read, Reading};
use crate::records;

/// Ask every index of a table of any length (slow on both sides).
fn all() -> bool {
    std::env::var_os("ORACLE_ALL").is_some()
}

fn answers(file: &[u8], reading: &Reading, questions: &[Question]) -> Vec<String> {
    questions.iter().map(|q| answer(file, reading, q)).collect()
}

/// The Rust's listing, a dot on a line, its answers.
pub fn reply(file: &[u8]) -> String {
    let reading = read(file);
    let mut text = listing(&reading) + ".\n";
    for line in answers(file, &reading, &questions(file, &reading, all())).iter().chain(&records::lines(file, None)) {
        text.push_str(line);
        text.push('\n');
    }
    text
}

/// The first line in which two texts differ.
fn first_difference(rust: &[&str], port: &[&str]) -> Option<String> {
    let length = rust.len().max(port.len());
    let at = (0..length).find(|i| rust.get(*i) != port.get(*i))?;
    let cut = |line: &str| -> String { line.chars().take(160).flat_map(char::escape_default).collect() };
    let show = |line: Option<&&str>| line.map_or("nothing".to_string(), |l| cut(l));
    Some(format!("the Rust: {}; the port: {}", show(rust.get(at)), show(port.get(at))))
}

#[derive(Default)]
struct Run {
    outcomes: BTreeMap<String, usize>,
    kinds: BTreeMap<&'static str, usize>,
    answers: usize,
    over_others: usize,
    differ: usize,
    bytes: usize,
    small: usize,
}

impl Run {
    fn count(&mut self, outcome: &str) {
        *self.outcomes.entry(outcome.to_string()).or_default() += 1;
    }

    /// What the files of the run exercise, by the Rust's side.
    fn note(&mut self, made: &Made, reading: &Reading) {
        *self.kinds.entry(made.kind).or_default() += 1;
        self.bytes += made.bytes.len();
        self.small += (made.bytes.len() < 2048) as usize;
        let c = match reading {
            Reading::Refused(line) => {
                let number = line.split(' ').nth(1).unwrap_or("?");
                return self.count(&format!("refused {number:>2}"));
            }
            Reading::Panicked => return self.count("refused  4 (a panic of the Rust)"),
            Reading::Unexpected(_) => return self.count("unexpected"),
            Reading::Loaded(c) => c,
        };
        self.count("loaded");
        self.count(if c.header.content_hash == [0; 32] { "loaded, unhashed" } else { "loaded, hashed" });
        if c.type_section.is_some() {
            self.count("loaded, with types");
        }
        if let Some(d) = &c.debug_section {
            self.count("loaded, with debug");
            self.count(if is_sorted(&d.line_map) { "debug, lines sorted" } else { "debug, lines unsorted" });
        }
    }

    fn show(&self) {
        let line = |map: Vec<(String, usize)>| -> String {
            let parts: Vec<String> = map.iter().map(|(name, n)| format!("{name}: {n}")).collect();
            parts.join("; ")
        };
        println!("files: {}", line(self.kinds.iter().map(|(k, n)| (k.to_string(), *n)).collect()));
        println!("the Rust: {}", line(self.outcomes.iter().map(|(k, n)| (k.clone(), *n)).collect()));
        println!("{} bytes, {} files under 2 KiB, {} answers", self.bytes, self.small, self.answers);
    }
}

/// One file on both sides. The difference, if there is one, with what each side says.
fn one(file: &[u8], reading: &Reading, port: &Port, run: &mut Run) -> Option<(String, String, String)> {
    let mut asked = questions(file, reading, all());
    asked.retain(|q| port.has(q.lookup));
    let listed = listing(reading);
    let said = match port::ask(port, file, &asked) {
        Ok(said) => said,
        Err(error) => return Some((error, listed, String::new())),
    };
    if let Reading::Unexpected(what) = reading {
        return Some((what.clone(), listed, said.listing));
    }
    if listed != said.listing {
        // Split by the line's end alone, so that a missing last one shows.
        let difference = first_difference(
            &listed.split('\n').collect::<Vec<_>>(),
            &said.listing.split('\n').collect::<Vec<_>>(),
        );
        return Some((difference.unwrap_or_default(), listed, said.listing));
    }
    let theirs = said.answers?;
    let mut ours = answers(file, reading, &asked);
    run.answers += ours.len();
    let over_others = records::lines(file, None);
    run.over_others += over_others.len();
    ours.extend(over_others);
    let lines = |texts: &[String]| -> String { texts.join("\n") + "\n" };
    let difference = first_difference(
        &ours.iter().map(String::as_str).collect::<Vec<_>>(),
        &theirs.iter().map(String::as_str).collect::<Vec<_>>(),
    )?;
    Some((difference, lines(&ours), lines(&theirs)))
}

/// How many differing files are shown and written.
const SHOWN: usize = 20;

/// Compares the files of a run. True if none differs.
pub fn run(count: u64, seed: u64, port: &Port, directory: Option<&str>) -> bool {
    let mut run = Run::default();
    for index in 0..count {
        let made = generate::file(seed, index);
        let reading = read(&made.bytes);
        run.note(&made, &reading);
        let Some((what, rust, port)) = one(&made.bytes, &reading, port, &mut run) else {
            continue;
        };
        run.differ += 1;
        if run.differ > SHOWN {
            continue;
        }
        println!("differs: seed {seed} file {index} ({}, {} bytes): {what}", made.kind, made.bytes.len());
        if let Some(directory) = directory {
            let name = format!("{directory}/{seed}-{index}");
            let parts = [("bin", &made.bytes[..]), ("rust", rust.as_bytes()), ("port", port.as_bytes())];
            for (ending, bytes) in parts {
                fs::write(format!("{name}.{ending}"), bytes).expect("the folder for differing files");
            }
        }
    }
    run.show();
    println!("{count} compared, {} lookups over other records, {} differ", run.over_others, run.differ);
    run.differ == 0
}

/// The Rust alone on the files of a run: what they exercise, and whether it panics exactly where document 01 has 4.
pub fn survey(count: u64, seed: u64) -> bool {
    let mut run = Run::default();
    for index in 0..count {
        let made = generate::file(seed, index);
        let reading = read(&made.bytes);
        run.note(&made, &reading);
        for q in questions(&made.bytes, &reading, false) {
            answer(&made.bytes, &reading, &q);
            run.answers += 1;
        }
        if let Reading::Unexpected(what) = &reading {
            run.differ += 1;
            println!("unexpected: seed {seed} file {index}: {what}");
        }
    }
    run.show();
    println!("{count} surveyed, {} unexpected", run.differ);
    run.differ == 0
}

/// The Rust's listings against stored ones: `file HEX`, the expected lines, a dot. True if all agree.
pub fn replies(path: &str) -> bool {
    let text = fs::read_to_string(path).expect("the stored replies");
    let (mut count, mut differ) = (0, 0);
    let mut lines = text.lines();
    while let Some(line) = lines.next() {
        let file = line.strip_prefix("file ").and_then(from_hex).expect("file and its bytes");
        let expected: String = lines.by_ref().take_while(|l| *l != ".").map(|l| format!("{l}\n")).collect();
        let said = listing(&read(&file));
        count += 1;
        if said != expected {
            differ += 1;
            println!("reply {count}: stored:\n{expected}the Rust:\n{said}");
        }
    }
    println!("{count} stored replies, {differ} differ");
    differ == 0 && count > 0
}

/// The supplied hash against BLAKE3's published vectors: input length and digest, input byte i being i mod 251. The generator and
/// the Rust hash with the same crate, so their agreement says nothing about it; this does. True if all agree.
pub fn vectors(path: &str) -> bool {
    let text = fs::read_to_string(path).expect("the published vectors");
    let (mut count, mut differ) = (0, 0);
    for line in text.lines().filter(|line| !line.starts_with('#')) {
        let (length, digest) = line.split_once(' ').expect("a length and a digest");
        let length: usize = length.parse().expect("a length");
        let input: Vec<u8> = (0..length).map(|i| (i % 251) as u8).collect();
        let mut in_parts = blake3::Hasher::new();
        in_parts.update(&input[..length / 3]).update(&input[length / 3..]);
        let whole = hex(blake3::hash(&input).as_bytes());
        count += 1;
        if whole != digest || hex(in_parts.finalize().as_bytes()) != digest {
            differ += 1;
            println!("vector of {length} bytes: {whole}, not {digest}");
        }
    }
    println!("{count} published vectors, {differ} differ");
    differ == 0 && count > 0
}
