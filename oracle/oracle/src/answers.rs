//! The Rust's answer to each question, as text. A refusal reads as in the listing: `refused`, its number, its values or `-`.

use ironplc_container::constant_pool::ConstEntry;
use ironplc_container::debug_section::{DebugSection, LineMapEntry};
use ironplc_container::header::{FileHeader, HEADER_SIZE};
use ironplc_container::id_types::{ConstantIndex, FunctionId};
use ironplc_container::integrity::masked_header;
use ironplc_container::type_section::{ArrayDescriptor, TypeSection};
use ironplc_container::{Container, ContainerError};

use crate::bytes::hex;
use crate::listing;
use crate::questions::Question;
use crate::reading::{directory_and_runtime, refusal, Reading, HASH_LIMIT};

type Answer = Result<String, String>;

fn refused<T>(number: u32) -> Result<T, String> {
    Err(format!("refused {number} -"))
}

/// An entry of a table; 29 for an index not below the count.
fn entry<T>(table: &[T], index: u32) -> Result<&T, String> {
    table.get(index as usize).map_or_else(|| refused(29), Ok)
}

fn shown<T: ToString>(answer: Result<T, ContainerError>) -> Answer {
    answer.map(|value| value.to_string()).map_err(|error| refusal(&error))
}

fn header(h: &FileHeader) -> String {
    let numbers: Vec<String> = directory_and_runtime(h).iter().map(u32::to_string).collect();
    format!(
        "{} {} {} {} {} {} {} {} {} {}",
        h.magic,
        h.format_version,
        h.profile,
        h.flags,
        hex(&h.content_hash),
        hex(&h.reserved_hash_slot),
        hex(&h.debug_hash),
        hex(&h.layout_hash),
        numbers.join(" "),
        hex(&h.reserved)
    )
}

fn type_lookup(types: Option<&TypeSection>, lookup: &str, i: u32, j: u32) -> Answer {
    let Some(types) = types else { return refused(16) };
    let array = |i: u32| -> Result<&ArrayDescriptor, String> {
        types.array_descriptors.get(i as usize).map_or_else(|| refused(16), Ok)
    };
    Ok(match lookup {
        "fb_type" => {
            let t = entry(&types.fb_types, i)?;
            format!("{} {}", t.type_id, t.fields.len())
        }
        "field" => {
            let f = entry(&entry(&types.fb_types, i)?.fields, j)?;
            format!("{} {}", f.field_type as u8, f.field_extra)
        }
        "array" => listing::array(array(i)?),
        "array_size" => array(i)?.byte_size().map_or_else(|| refused(17), Ok)?.to_string(),
        _ => listing::user_fb(entry(&types.user_fb_types, i)?),
    })
}

/// The Rust has no public getter for U32 and U64. Document 01: `get_le_bytes` at width 4 or 8, that is its checks and the
/// first bytes of what the entry keeps.
fn unsigned(c: &Container, i: u32, wanted: u8, width: usize) -> Answer {
    let Some(found) = c.constant_pool.iter().nth(i as usize) else {
        return Err(format!("refused 11 {i}"));
    };
    if found.const_type as u8 != wanted {
        return Err(format!("refused 9 {}", found.const_type as u8));
    }
    let mut bytes = [0u8; 8];
    bytes[..width].copy_from_slice(&listing::kept(found)[..width]);
    Ok(u64::from_le_bytes(bytes).to_string())
}

fn constant(c: &Container, lookup: &str, i: u32) -> Answer {
    let pool = &c.constant_pool;
    let index = ConstantIndex::new(i as u16);
    match lookup {
        "get_i32" => shown(pool.get_i32(index)),
        "get_i64" => shown(pool.get_i64(index)),
        "get_f32" => shown(pool.get_f32(index).map(f32::to_bits)),
        "get_f64" => shown(pool.get_f64(index).map(f64::to_bits)),
        "get_str" => shown(pool.get_str(index).map(hex)),
        "char_width" => shown(pool.char_width(index).map(|w| w.byte_width())),
        "get_u32" => unsigned(c, i, 1, 4),
        "get_u64" => unsigned(c, i, 3, 8),
        _ => {
            let found: Option<&ConstEntry> = pool.iter().nth(i as usize);
            found
                .map(|e| format!("{} {}", e.const_type as u8, hex(&listing::kept(e))))
                .ok_or(format!("refused 11 {i}"))
        }
    }
}

fn code(c: &Container, lookup: &str, i: u32) -> Answer {
    let id = FunctionId::new(i as u16);
    match lookup {
        "function" => c.code.get_function(id).map(listing::function),
        _ => c.code.get_function_bytecode(id).map(hex),
    }
    .map_or_else(|| refused(12), Ok)
}

/// Whether pairs (function, offset) never fall.
pub fn is_sorted(map: &[LineMapEntry]) -> bool {
    map.windows(2).all(|w| {
        (w[0].function_id.raw(), w[0].bytecode_offset) <= (w[1].function_id.raw(), w[1].bytecode_offset)
    })
}

/// The Rust's search supposes a sorted map; 14 is added for the others.
fn line(d: &DebugSection, function: u32, offset: u32) -> Answer {
    if !is_sorted(&d.line_map) {
        return refused(14);
    }
    let found = d.lookup_source_location(FunctionId::new(function as u16), offset as u16);
    found.map(|l| listing::line(&l)).map_or_else(|| refused(13), Ok)
}

fn debug(d: Option<&DebugSection>, lookup: &str, i: u32, j: u32) -> Answer {
    let Some(d) = d else { return refused(15) };
    Ok(match lookup {
        "line" => line(d, i, j)?,
        "line_entry" => listing::line(entry(&d.line_map, i)?),
        "variable" => {
            let v = entry(&d.var_names, i)?;
            let numbers = format!("{} {} {} {}", v.var_index, v.function_id, v.var_section, v.iec_type_tag);
            format!("{numbers} {} {}", hex(v.name.as_bytes()), hex(v.type_name.as_bytes()))
        }
        "function_name" => {
            let f = entry(&d.func_names, i)?;
            format!("{} {}", f.function_id, hex(f.name.as_bytes()))
        }
        "string_layout" => {
            let s = entry(&d.string_layouts, i)?;
            format!("{} {} {}", s.var_index, s.data_offset, s.max_length)
        }
        "source_file" => {
            let f = entry(&d.source_files, i)?;
            format!("{} {}", hex(f.path.as_bytes()), hex(&f.content_hash))
        }
        "enumeration" => {
            let e = entry(&d.enum_defs, i)?;
            format!("{} {}", hex(e.type_name.as_bytes()), e.values.len())
        }
        _ => hex(entry(&entry(&d.enum_defs, i)?.values, j)?.as_bytes()),
    })
}

/// The Rust's answer from the tables of a container.
pub fn loaded(c: &Container, q: &Question) -> Answer {
    let at = |n: usize| q.arguments.get(n).copied().unwrap_or(0);
    let (i, j) = (at(0), at(1));
    let tasks = &c.task_table;
    match q.lookup {
        "header" => Ok(header(&c.header)),
        "tasks" => Ok(format!(
            "{} {} {}",
            tasks.tasks.len(),
            tasks.programs.len(),
            tasks.shared_globals_size
        )),
        "task" => entry(&tasks.tasks, i).map(|t| format!("{} {}", listing::task(t), hex(&t.reserved))),
        "program" => entry(&tasks.programs, i).map(listing::program),
        "types" => Ok(c.type_section.as_ref().map_or("none".to_string(), |t| {
            let (fbs, arrays) = (t.fb_types.len(), t.array_descriptors.len());
            format!("{fbs} {arrays} {}", t.user_fb_types.len())
        })),
        "fb_type" | "field" | "array" | "array_size" | "user_fb" => {
            type_lookup(c.type_section.as_ref(), q.lookup, i, j)
        }
        "constants" => Ok(c.constant_pool.len().to_string()),
        "code" => {
            // The bytecode's length: the section without its directory.
            let bytecode = c.code.section_size() as usize - 16 * c.code.functions.len();
            Ok(format!("{} {bytecode}", c.code.functions.len()))
        }
        "function" | "bytecode" => code(c, q.lookup, i),
        "debug" => Ok(listing::debug_counts(c)),
        "line" | "line_entry" | "variable" | "function_name" | "string_layout" | "source_file" | "enumeration"
        | "enumeration_value" => debug(c.debug_section.as_ref(), q.lookup, i, j),
        _ => constant(c, q.lookup, i),
    }
}

/// For each tag the row in force, or `none`, and how many it replaced. The Rust keeps no rows: they are looked up in its debug section's
/// directory, if it has loaded that section.
fn in_force(file: &[u8], c: &Container) -> String {
    let section = match c.debug_section {
        Some(_) => &file[c.header.debug_section_offset as usize..],
        None => &[0, 0],
    };
    let number = |at: usize| u16::from_le_bytes([section[at], section[at + 1]]);
    let rows: Vec<u16> = (0..number(0) as usize).map(|i| number(2 + 8 * i)).collect();
    let of_tag = |tag: u16| match rows.iter().rposition(|t| *t == tag) {
        Some(row) => format!("{row}+{}", rows[..row].iter().filter(|t| **t == tag).count()),
        None => "none+0".to_string(),
    };
    [1, 2, 3, 4, 6, 9].map(of_tag).join(" ")
}

/// The line of an answer: the question's text, a colon, the answer.
pub fn answer(file: &[u8], reading: &Reading, q: &Question) -> String {
    let said = match (q.lookup, reading) {
        ("hash", _) if part(file, q).len() > HASH_LIMIT => refused(10),
        ("hash", _) => Ok(hex(blake3::hash(part(file, q)).as_bytes())),
        ("utf8", _) => Ok(good_start(part(file, q)).to_string()),
        ("masked_header", _) => {
            let header: &[u8; HEADER_SIZE] = file[..HEADER_SIZE].try_into().expect("256 bytes");
            Ok(hex(&masked_header(header)))
        }
        ("in_force", Reading::Loaded(c)) => Ok(in_force(file, c)),
        (_, Reading::Loaded(c)) => loaded(c, q),
        _ => Err("not loaded".to_string()),
    };
    format!("{}: {}", q.text(), said.unwrap_or_else(|refusal| refusal))
}

/// The part of the file that a leaf is asked about: place and length.
fn part<'a>(file: &'a [u8], q: &Question) -> &'a [u8] {
    let (at, size) = (q.arguments[0] as usize, q.arguments[1] as usize);
    &file[at..at + size]
}

/// How many bytes the longest good UTF-8 start has, by Rust's library.
fn good_start(text: &[u8]) -> usize {
    match std::str::from_utf8(text) {
        Ok(all) => all.len(),
        Err(error) => error.valid_up_to(),
    }
}
