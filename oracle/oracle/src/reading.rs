//! `Container::read_from` with document 01's length limit above it and its panics caught.

use std::panic::{catch_unwind, AssertUnwindSafe};

use ironplc_container::code_section::CodeSection;
use ironplc_container::constant_pool::ConstantPool;
use ironplc_container::header::{FileHeader, FLAG_HAS_TYPE_SECTION};
use ironplc_container::integrity::{check_content_hash, Content, NO_HASH};
use ironplc_container::task_table::TaskTable;
use ironplc_container::type_section::TypeSection;
use ironplc_container::{Container, ContainerError};

use crate::bytes::*;

/// Document 01: over 65,536 bytes gives 10 (added).
pub const LIMIT: usize = 65_536;

/// Document 01: a hash asked alone over 261,376 bytes gives 10, too (added).
pub const HASH_LIMIT: usize = 261_376;

/// The numbers of a header from byte 136 on: offset and size of the seven sections, then the runtime parameters.
pub fn directory_and_runtime(h: &FileHeader) -> Vec<u32> {
    let places = [
        h.sig_section_offset,
        h.sig_section_size,
        h.debug_sig_offset,
        h.debug_sig_size,
        h.type_section_offset,
        h.type_section_size,
        h.task_section_offset,
        h.task_section_size,
        h.const_section_offset,
        h.const_section_size,
        h.code_section_offset,
        h.code_section_size,
        h.debug_section_offset,
        h.debug_section_size,
    ];
    let runtime = [
        h.max_stack_depth.into(),
        h.max_call_depth.into(),
        h.num_variables.into(),
        h.data_region_bytes,
        h.num_temp_bufs.into(),
        h.max_temp_buf_bytes,
        h.num_functions.into(),
        h.num_fb_types.into(),
        h.input_image_bytes.into(),
        h.output_image_bytes.into(),
        h.memory_image_bytes.into(),
    ];
    places.iter().chain(&runtime).copied().collect()
}

pub enum Reading {
    Loaded(Box<Container>),
    Refused(String),
    /// The Rust panics, and document 01's step 4 gives 4.
    Panicked,
    /// The Rust panicked where document 01 has no 4, or did not where it has: a finding about the papers.
    Unexpected(String),
}

/// Document 01's number of a refusal and its values, as the lister prints them.
pub fn refusal(error: &ContainerError) -> String {
    match error {
        ContainerError::Io(_) => "refused 1 -".to_string(),
        ContainerError::InvalidMagic => "refused 2 -".to_string(),
        ContainerError::UnsupportedVersion => "refused 3 -".to_string(),
        ContainerError::SectionSizeMismatch => "refused 4 -".to_string(),
        ContainerError::ContentHashMismatch => "refused 5 -".to_string(),
        ContainerError::InvalidTaskType(v) => format!("refused 6 {v}"),
        ContainerError::InvalidFieldType(v) => format!("refused 7 {v}"),
        ContainerError::InvalidArrayStride {
            element_type,
            element_stride,
        } => format!("refused 8 {element_type} {element_stride}"),
        ContainerError::InvalidConstantType(v) => format!("refused 9 {v}"),
        ContainerError::InvalidConstantIndex(v) => format!("refused 11 {}", v.raw()),
        ContainerError::InvalidDebugSection | ContainerError::InvalidCharWidth(_) => {
            format!("no number of document 01: {error}")
        }
    }
}

pub fn read(file: &[u8]) -> Reading {
    if file.len() > LIMIT {
        return Reading::Refused("refused 10 -".to_string());
    }
    let answer = catch_unwind(AssertUnwindSafe(|| Container::read_from(&mut &file[..])));
    match (answer, step_4_refuses(file)) {
        (Ok(Ok(container)), false) => Reading::Loaded(Box::new(container)),
        (Ok(Err(error)), false) => Reading::Refused(refusal(&error)),
        (Err(_), true) => Reading::Panicked,
        (Err(_), false) => Reading::Unexpected("the Rust panics where document 01 has no 4".to_string()),
        (Ok(_), true) => Reading::Unexpected("document 01 has 4 and the Rust does not panic".to_string()),
    }
}

/// The part of the file that starts at the offset and has the size, if it lies in the file behind the header.
fn part(file: &[u8], pair: usize) -> Option<&[u8]> {
    let offset = u32_at(file, pair) as usize;
    let size = u32_at(file, pair + 4) as usize;
    if offset < HEADER {
        return None;
    }
    file.get(offset..offset + size)
}

/// The same at the hash step: a size of 0 passes with any offset.
fn hashed_part(file: &[u8], pair: usize) -> Option<&[u8]> {
    if u32_at(file, pair + 4) == 0 {
        return Some(&[]);
    }
    part(file, pair)
}

fn passes_hash(file: &[u8], header: &[u8; HEADER], expected: &[u8; 32]) -> bool {
    let parts = [TASKS, TYPES, CONSTANTS, CODE].map(|pair| hashed_part(file, pair));
    let [Some(task_table), Some(type_section), Some(const_section), Some(code_section)] = parts else {
        return false;
    };
    let content = Content {
        header,
        task_table,
        type_section,
        const_section,
        code_section,
    };
    check_content_hash(expected, &content).is_ok()
}

/// Whether document 01's step 4 gives 4: header and hash are passed, every section before is read, and tasks, constants or
/// code do not lie in the file behind the header. The places are computed here, the sections read by the Rust's own readers.
fn step_4_refuses(file: &[u8]) -> bool {
    let Some(Ok(header_bytes)) = file.get(..HEADER).map(<&[u8; HEADER]>::try_from) else {
        return false;
    };
    let Ok(header) = FileHeader::from_bytes(header_bytes) else {
        return false;
    };
    if header.content_hash != NO_HASH && !passes_hash(file, header_bytes, &header.content_hash) {
        return false;
    }
    let Some(tasks) = part(file, TASKS) else {
        return true;
    };
    if TaskTable::read_from(&mut &tasks[..]).is_err() {
        return false;
    }
    if header.flags & FLAG_HAS_TYPE_SECTION != 0 && header.type_section_size > 0 {
        if let Some(types) = part(file, TYPES) {
            if TypeSection::read_from(&mut &types[..]).is_err() {
                return false;
            }
        }
    }
    let Some(constants) = part(file, CONSTANTS) else {
        return true;
    };
    if ConstantPool::read_from(&mut &constants[..]).is_err() {
        return false;
    }
    let Some(code) = part(file, CODE) else {
        return true;
    };
    let _ = CodeSection::read_from(&mut &code[..], header.num_functions, header.code_section_size);
    false
}
