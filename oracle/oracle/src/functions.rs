//! The C functions of the static library, as include/nurqeshil.h declares them; the measuring program uses this file, too.

unsafe extern "C" {
    pub fn container_load(file: *const u8, length: usize, out: *mut u64, room: usize) -> usize;
    pub fn container_ask(
        file: *const u8,
        length: usize,
        kind: u16,
        index: u16,
        second: u16,
        out: *mut u64,
        room: usize,
    ) -> usize;
    pub fn container_lookup(
        file: *const u8,
        length: usize,
        record: *const u64,
        numbers: usize,
        kind: u16,
        index: u16,
        second: u16,
        out: *mut u64,
        room: usize,
    ) -> usize;
    pub fn container_line(
        file: *const u8,
        length: usize,
        function: u16,
        offset: u16,
        out: *mut u64,
        room: usize,
    ) -> usize;
    pub fn container_content_hash(
        file: *const u8,
        length: usize,
        digest: *mut u8,
        digest_length: usize,
        out: *mut u64,
        room: usize,
    ) -> usize;
    pub fn container_hash(
        bytes: *const u8,
        length: usize,
        digest: *mut u8,
        digest_length: usize,
        out: *mut u64,
        room: usize,
    ) -> usize;
    pub fn container_list(file: *const u8, length: usize, out: *mut u8, room: usize) -> usize;
}
