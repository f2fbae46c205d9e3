//! Port and Rust on the same files, in one program: how long loading, hashing, listing and looking up take. First it is seen
//! that both sides answer the same.

#![allow(dead_code)]

mod agreement;
mod files;
mod lookups;
mod port;
mod timing;
// The oracle's: the library's functions, the Rust's listing, and what it stands on.
#[path = "../../../oracle/build/oracle/src/bytes.rs"]
mod bytes;
#[path = "../../../oracle/build/oracle/src/functions.rs"]
mod functions;
#[path = "../../../oracle/build/oracle/src/listing.rs"]
mod listing;
#[path = "../../../oracle/build/oracle/src/reading.rs"]
mod reading;

use std::hint::black_box;

use files::File;
use ironplc_container::Container;
use lookups::{Lookup, LOOKUPS};
use port::NO_NUMBERS;
use timing::{least, Way};

const SMALL: usize = 4_096;
const LARGE: usize = 65_536;

/// What was measured of one piece of work: the port's microseconds, and the Rust's in each build that was tried.
struct Row {
    what: String,
    bytes: usize,
    entries: Option<usize>,
    port: f64,
    rust: Vec<(&'static str, f64)>,
}

/// The Rust's three builds of BLAKE3: as the container builds it, portable code alone, its default.
const SSE2: &str = "SSE2";
const PORTABLE: &str = "portable";
const DEFAULT: &str = "default";

fn port_load(file: &[u8]) -> Way<'_> {
    let mut out = NO_NUMBERS;
    Way::new(move || port::load(black_box(file), &mut out))
}

fn rust_load(file: &[u8]) -> Way<'_> {
    Way::new(move || Container::read_from(&mut black_box(file)).expect("the Rust loads the file"))
}

fn portable_load(file: &[u8]) -> Way<'_> {
    Way::new(move || container_portable::Container::read_from(&mut black_box(file)).expect("it loads"))
}

fn load(file: &File, hashed: bool) -> Row {
    let bytes = &file.bytes[..];
    let what = format!("load, {}, {}", if hashed { "hashed" } else { "unhashed" }, file.shape);
    let mut ways = vec![port_load(bytes), rust_load(bytes)];
    let mut builds = vec![if hashed { SSE2 } else { "" }];
    if hashed {
        ways.push(portable_load(bytes));
        builds.push(PORTABLE);
    }
    row(what, bytes.len(), Some(agreement::entries(bytes)), builds, least(ways))
}

fn hash(length: usize) -> Row {
    let bytes: Vec<u8> = (0..length).map(|i| (i % 251) as u8).collect();
    let bytes = &bytes[..];
    agreement::of_hash(bytes);
    let mut digest = [0; 32];
    let mut out = port::NO_NUMBERS;
    let ways = vec![
        Way::new(move || port::hash(black_box(bytes), &mut digest, &mut out)),
        Way::new(move || blake3::hash(black_box(bytes))),
        Way::new(move || blake3_portable::hash(black_box(bytes))),
        Way::new(move || real_default::hash(black_box(bytes))),
    ];
    row("hash".to_string(), length, None, vec![SSE2, PORTABLE, DEFAULT], least(ways))
}

fn list(file: &File) -> Row {
    let bytes = &file.bytes[..];
    let mut page = vec![0; port::PAGE];
    let ways = vec![
        Way::new(move || port::list(black_box(bytes), &mut page)),
        Way::new(move || agreement::rust_listing(black_box(bytes))),
    ];
    row(format!("listing, {}", file.shape), bytes.len(), Some(agreement::entries(bytes)), vec![""], least(ways))
}

fn row(what: String, bytes: usize, entries: Option<usize>, builds: Vec<&'static str>, times: Vec<f64>) -> Row {
    let rust = builds.into_iter().zip(times[1..].iter().copied()).collect();
    Row { what, bytes, entries, port: times[0], rust }
}

fn print_rows(rows: &[Row]) {
    println!("\n| what | bytes | port µs | Rust | Rust µs | port / Rust |\n|---|---|---|---|---|---|");
    for row in rows {
        for (build, rust) in &row.rust {
            let ratio = row.port / rust;
            println!("| {} | {} | {:.2} | {build} | {rust:.2} | {ratio:.2} |", row.what, row.bytes, row.port);
        }
    }
}

/// How much longer the same work takes on the large file.
fn print_growth(rows: &[Row]) {
    println!("\n| what | bytes grow by | entries by | port's time by | Rust's time by |\n|---|---|---|---|---|");
    for small in rows.iter().filter(|row| row.bytes == SMALL) {
        let found = rows.iter().find(|row| row.bytes == LARGE && row.what == small.what);
        let Some(large) = found else { continue };
        let (bytes, port) = (LARGE as f64 / SMALL as f64, large.port / small.port);
        let rust = large.rust[0].1 / small.rust[0].1;
        let pair = small.entries.zip(large.entries);
        let entries = pair.map_or("-".to_string(), |(few, many)| format!("{:.1}", many as f64 / few as f64));
        println!("| {} | {bytes:.1} | {entries} | {port:.1} | {rust:.1} |", small.what);
    }
}

/// A lookup by `container_ask`, which loads the file first.
fn asked<'a>(file: &'a [u8], lookup: &'a Lookup, index: u16) -> Way<'a> {
    let mut out = NO_NUMBERS;
    Way::new(move || port::ask(black_box(file), lookup.kind, index, lookup.second, &mut out))
}

/// The same lookup by `container_lookup`, over the record of the file.
fn looked_up<'a>(file: &'a [u8], lookup: &'a Lookup, index: u16) -> Way<'a> {
    let (mut record, mut out) = (NO_NUMBERS, NO_NUMBERS);
    let numbers = port::load(file, &mut record);
    Way::new(move || port::lookup(black_box(file), &record[..numbers], lookup.kind, index, lookup.second, &mut out))
}

/// The port's lookups, first of the file and then of its record, with loading alone beside them.
fn print_lookups(hashed: &str, files: &[File]) {
    for lookup in &LOOKUPS {
        for file in files.iter().filter(|file| file.shape == lookup.shape) {
            let bytes = &file.bytes[..];
            let indexes = lookup.indexes(&agreement::read(bytes));
            let mut ways = vec![port_load(bytes)];
            ways.extend(indexes.map(|index| asked(bytes, lookup, index)));
            ways.extend(indexes.map(|index| looked_up(bytes, lookup, index)));
            let times = least(ways);
            let ratio = times[6] / times[3];
            let times: Vec<String> = times.iter().map(|time| format!("{time:.2}")).collect();
            println!("| {}, {hashed}, {} | {} | {} | {ratio:.2} |", lookup.name, file.shape, bytes.len(), times.join(" | "));
        }
    }
}

fn print_files(files: &[File]) {
    println!("\n| file | bytes | tasks | FB types | arrays | constants | functions | lines | variables |");
    println!("|---|---|---|---|---|---|---|---|---|");
    for file in files {
        let c = agreement::read(&file.bytes);
        let (fb_types, arrays) = c.type_section.as_ref().map_or((0, 0), |t| (t.fb_types.len(), t.array_descriptors.len()));
        let (lines, variables) = c.debug_section.as_ref().map_or((0, 0), |d| (d.line_map.len(), d.var_names.len()));
        let counts = [c.task_table.tasks.len(), fb_types, arrays, c.constant_pool.len(), c.code.functions.len(), lines, variables];
        let counts: Vec<String> = counts.iter().map(usize::to_string).collect();
        println!("| {} | {} | {} |", file.shape, file.bytes.len(), counts.join(" | "));
    }
}

fn main() {
    let hashed: Vec<File> = [SMALL, LARGE].into_iter().flat_map(files::hashed).collect();
    let unhashed: Vec<File> = hashed.iter().map(files::unhashed).collect();
    let mut others: Vec<File> = unhashed.iter().filter_map(files::unreadable).collect();
    others.extend(unhashed.iter().filter_map(files::empty_tables));
    hashed.iter().chain(&unhashed).chain(&others).for_each(agreement::of_file);
    hashed.iter().for_each(agreement::of_altered);
    println!("both sides answer the same on {} files", hashed.len() + unhashed.len() + others.len());
    print_files(&hashed);
    let mut rows: Vec<Row> = unhashed.iter().map(|file| load(file, false)).collect();
    rows.extend(others.iter().map(|file| load(file, false)));
    rows.extend(hashed.iter().map(|file| load(file, true)));
    rows.extend([1_024, SMALL, LARGE, 261_376].map(hash));
    rows.extend(unhashed.iter().map(list));
    print_rows(&rows);
    print_growth(&rows);
    println!("\n| lookup | bytes | load | ask: first | middle | last | over the record: first | middle | last | last: lookup / ask |");
    println!("|---|---|---|---|---|---|---|---|---|---|");
    print_lookups("unhashed", &unhashed);
    print_lookups("hashed", &hashed);
}
