//! That both sides answer the same on what is measured. Otherwise nothing is measured.

use ironplc_container::constant_pool::ConstEntry;
use ironplc_container::header::FileHeader;
use ironplc_container::Container;

use crate::files::File;
use crate::listing;
use crate::lookups::LOOKUPS;
use crate::port::{self, NO_NUMBERS};
use crate::reading::directory_and_runtime;

pub fn read(file: &[u8]) -> Container {
    Container::read_from(&mut &file[..]).expect("the Rust loads the file")
}

/// What an entry keeps, where a number has as many bytes as its type. (The oracle's way is right for all, and slow.)
fn kept(entry: &ConstEntry) -> Vec<u8> {
    let mut bytes = entry.bytes().to_vec();
    if !entry.const_type.is_string_like() {
        bytes.resize(8, 0);
    }
    bytes
}

/// The Rust's listing of a file, which it reads for that.
pub fn rust_listing(file: &[u8]) -> String {
    listing::loaded(&read(file), kept)
}

fn header_numbers(h: &FileHeader) -> Vec<u64> {
    let start = [h.format_version.into(), h.profile.into(), h.flags.into()];
    start.iter().chain(&directory_and_runtime(h)).map(|n| u64::from(*n)).collect()
}

/// How many entries the tables have.
pub fn entries(file: &[u8]) -> usize {
    let c = read(file);
    let types = c.type_section.map_or(0, |t| t.fb_types.len() + t.array_descriptors.len() + t.user_fb_types.len());
    let debug = c.debug_section.map_or(0, |d| {
        let named = d.var_names.len() + d.func_names.len() + d.enum_defs.len();
        named + d.line_map.len() + d.string_layouts.len() + d.source_files.len()
    });
    let run = c.task_table.tasks.len() + c.task_table.programs.len() + c.constant_pool.len() + c.code.functions.len();
    run + types + debug
}

/// What loading answers: 0, the header's numbers, the counts of tasks, types, constants and debug; rows in force may follow.
fn load_numbers(c: &Container) -> Vec<u64> {
    let tasks = &c.task_table;
    let types = c.type_section.as_ref().map_or([0; 4], |t| {
        [1, t.fb_types.len(), t.array_descriptors.len(), t.user_fb_types.len()]
    });
    let debug = c.debug_section.as_ref().map_or([0; 7], |d| {
        let named = [d.line_map.len(), d.var_names.len(), d.func_names.len()];
        let others = [d.string_layouts.len(), d.source_files.len(), d.enum_defs.len()];
        [1, named[0], named[1], named[2], others[0], others[1], others[2]]
    });
    let mut counts = vec![tasks.tasks.len(), tasks.programs.len(), tasks.shared_globals_size.into()];
    counts.extend(types);
    counts.push(c.constant_pool.len());
    counts.extend(debug);
    let counts = counts.iter().map(|n| *n as u64).collect();
    [vec![0], header_numbers(&c.header), counts].concat()
}

fn same(what: &str, file: &File, holds: bool) {
    assert!(holds, "{what}: port and Rust differ on the file `{}` of {} bytes", file.shape, file.bytes.len());
}

/// Loading, both hashes, the listing and every entry of the tables that are looked up in.
pub fn of_file(file: &File) {
    let container = read(&file.bytes);
    let mut out = NO_NUMBERS;
    let count = port::load(&file.bytes, &mut out);
    let numbers = load_numbers(&container);
    same("load", file, count >= numbers.len() && out[..numbers.len()] == numbers);
    let mut digest = [0; 32];
    let count = port::content_hash(&file.bytes, &mut digest, &mut out);
    same("content hash", file, out[..count] == [0] && digest == container.header.content_hash);
    let mut page = vec![0; port::PAGE];
    let length = port::list(&file.bytes, &mut page);
    same("listing", file, page[..length] == *rust_listing(&file.bytes).as_bytes());
    for lookup in LOOKUPS.iter().filter(|lookup| lookup.shape == file.shape) {
        same(lookup.name, file, lookup.agrees(&file.bytes, &container));
    }
    let portable = container_portable::Container::read_from(&mut &file.bytes[..]).expect("it loads");
    same("portable", file, portable.constant_pool.len() == container.constant_pool.len());
}

/// A hashed file with its last constant altered is refused with 5 by all: the hash is looked at.
pub fn of_altered(file: &File) {
    let header = read(&file.bytes).header;
    let mut altered = File { shape: file.shape, bytes: file.bytes.clone() };
    altered.bytes[(header.const_section_offset + header.const_section_size - 1) as usize] ^= 1;
    let mut out = NO_NUMBERS;
    let count = port::load(&altered.bytes, &mut out);
    same("altered", &altered, out[..count] == [5]);
    same("altered", &altered, Container::read_from(&mut &altered.bytes[..]).is_err());
    same("altered", &altered, container_portable::Container::read_from(&mut &altered.bytes[..]).is_err());
}

pub fn of_hash(bytes: &[u8]) {
    let mut digest = [0; 32];
    let mut out = NO_NUMBERS;
    let count = port::hash(bytes, &mut digest, &mut out);
    assert!(out[..count] == [0], "the port refuses to hash {} bytes: {}", bytes.len(), out[0]);
    let others = [
        *blake3::hash(bytes).as_bytes(),
        *blake3_portable::hash(bytes).as_bytes(),
        *real_default::hash(bytes).as_bytes(),
    ];
    assert!(others.iter().all(|other| *other == digest), "the hashes of {} bytes differ", bytes.len());
}
