//! The port: the functions of the static library.

use crate::functions::*;

/// Room for the numbers of any answer.
pub type Numbers = [u64; 64];

pub const NO_NUMBERS: Numbers = [0; 64];

/// Room for the text of any file.
pub const PAGE: usize = 2_097_152;

// SAFETY, of all: the library only reads the file and writes at most as much as there is room for.

/// How many numbers were put: 0 and what the record has, or a refusal's number and its values.
pub fn load(file: &[u8], out: &mut Numbers) -> usize {
    unsafe { container_load(file.as_ptr(), file.len(), out.as_mut_ptr(), out.len()) }
}

/// The same of a lookup.
pub fn ask(file: &[u8], kind: u16, index: u16, second: u16, out: &mut Numbers) -> usize {
    unsafe { container_ask(file.as_ptr(), file.len(), kind, index, second, out.as_mut_ptr(), out.len()) }
}

/// The same of a lookup over the numbers of a record.
pub fn lookup(file: &[u8], record: &[u64], kind: u16, index: u16, second: u16, out: &mut Numbers) -> usize {
    let (numbers, room) = (record.len(), out.len());
    unsafe { container_lookup(file.as_ptr(), file.len(), record.as_ptr(), numbers, kind, index, second, out.as_mut_ptr(), room) }
}

/// The same of the content hash, whose bytes are put into `digest`.
pub fn content_hash(file: &[u8], digest: &mut [u8; 32], out: &mut Numbers) -> usize {
    let (place, length) = (digest.as_mut_ptr(), digest.len());
    unsafe { container_content_hash(file.as_ptr(), file.len(), place, length, out.as_mut_ptr(), out.len()) }
}

/// The same of any bytes' hash.
pub fn hash(bytes: &[u8], digest: &mut [u8; 32], out: &mut Numbers) -> usize {
    let (place, length) = (digest.as_mut_ptr(), digest.len());
    unsafe { container_hash(bytes.as_ptr(), bytes.len(), place, length, out.as_mut_ptr(), out.len()) }
}

/// The length of the listing.
pub fn list(file: &[u8], out: &mut [u8]) -> usize {
    unsafe { container_list(file.as_ptr(), file.len(), out.as_mut_ptr(), out.len()) }
}
