//! The start-up card's lines of a container: its content hash, constant 0, and the source line of function 0 at offset 3.
//!     card FILE
//! Whatever the file lacks, or a file that is not a container, is reported by its refusal number and values.

unsafe extern "C" {
    fn container_load(file: *const u8, length: usize, out: *mut u64, room: usize) -> usize;
    fn container_lookup(
        file: *const u8,
        length: usize,
        record: *const u64,
        numbers: usize,
        kind: u16,
        index: u16,
        second: u16,
        out: *mut u64,
        room: usize,
    ) -> usize;
    fn container_content_hash(
        file: *const u8,
        length: usize,
        digest: *mut u8,
        digest_length: usize,
        out: *mut u64,
        room: usize,
    ) -> usize;
}

const ROOM: usize = 64;
const GET_I32: u16 = 8;
const LINE: u16 = 18;

/// A refusal's number and values.
type Refusal = Vec<u64>;

/// All numbers of an answer, its 0 included, or those of a refusal.
fn answered(ask: impl FnOnce(*mut u64, usize) -> usize) -> Result<Vec<u64>, Refusal> {
    let mut out = [0; ROOM];
    let count = ask(out.as_mut_ptr(), out.len());
    match &out[..count] {
        answer @ [0, ..] => Ok(answer.to_vec()),
        [] => unreachable!("there is room, the record is a loaded file's, and the kind is known"),
        refusal => Err(refusal.to_vec()),
    }
}

// SAFETY, of all: the library only reads the file and the record, and writes at most as much as there is room for.
fn content_hash(file: &[u8]) -> Result<String, Refusal> {
    let mut hash = [0; 32];
    let digest = hash.as_mut_ptr();
    answered(|out, room| unsafe { container_content_hash(file.as_ptr(), file.len(), digest, 32, out, room) })?;
    Ok(hash.iter().map(|byte| format!("{byte:02x}")).collect())
}

/// A file and its record.
struct Container<'a> {
    file: &'a [u8],
    record: Vec<u64>,
}

impl<'a> Container<'a> {
    /// Loads the file, once.
    fn load(file: &'a [u8]) -> Result<Self, Refusal> {
        let record = answered(|out, room| unsafe { container_load(file.as_ptr(), file.len(), out, room) })?;
        Ok(Self { file, record })
    }

    fn lookup(&self, kind: u16, index: u16, second: u16) -> Result<Vec<u64>, Refusal> {
        let (file, record) = (self.file, &self.record);
        answered(|out, room| unsafe {
            container_lookup(file.as_ptr(), file.len(), record.as_ptr(), record.len(), kind, index, second, out, room)
        })
    }

    fn get_i32(&self, index: u16) -> Result<i64, Refusal> {
        self.lookup(GET_I32, index, 0).map(|numbers| numbers[1] as i64)
    }

    /// Line and column of a place in a function's bytecode.
    fn line(&self, function: u16, offset: u16) -> Result<(u64, u64), Refusal> {
        self.lookup(LINE, function, offset).map(|numbers| (numbers[4], numbers[5]))
    }
}

fn card(file: &[u8]) -> Result<(), Refusal> {
    let container = Container::load(file)?;
    println!("content hash {}", content_hash(file)?);
    println!("constant 0 is {}", container.get_i32(0)?);
    let (line, column) = container.line(0, 3)?;
    println!("function 0 at 3 is line {line}, column {column}");
    Ok(())
}

fn main() {
    let path = std::env::args().nth(1).expect("card FILE");
    let file = std::fs::read(path).expect("a file that can be read");
    if let Err(refusal) = card(&file) {
        let numbers: Vec<String> = refusal.iter().map(u64::to_string).collect();
        println!("refused {}", numbers.join(" "));
        std::process::exit(1);
    }
}
