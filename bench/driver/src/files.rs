//! The files: seven shapes, made by the Rust's own writer, of a given length.

use ironplc_container::code_section::CodeSection;
use ironplc_container::constant_pool::{ConstEntry, ConstantPool};
use ironplc_container::debug_section::*;
use ironplc_container::header::{FileHeader, CONTENT_HASH_RANGE, DEBUG_HASH_RANGE};
use ironplc_container::id_types::*;
use ironplc_container::task_table::{ProgramInstanceEntry, TaskEntry, TaskTable};
use ironplc_container::task_type::TaskType;
use ironplc_container::type_section::*;
use ironplc_container::Container;

pub struct File {
    pub shape: &'static str,
    pub bytes: Vec<u8>,
}

pub const PROGRAM: &str = "program";
pub const SHORT_CONSTANTS: &str = "constants of 4 bytes";
pub const LONG_CONSTANTS: &str = "constants of 8 bytes";
pub const TEXTS: &str = "names of 250 bytes";
pub const TWO_BYTE_TEXTS: &str = "names of two-byte letters";
pub const THREE_BYTE_TEXTS: &str = "names of three-byte letters";
pub const MIXED_TEXTS: &str = "names of mixed letters";
pub const BAD_TEXTS: &str = "names of 250 bytes, the last byte bad";
pub const BAD_MIXED_TEXTS: &str = "names of mixed letters, the last byte bad";
pub const EMPTY_TABLES: &str = "empty tables of lines";

const FUNCTIONS: usize = 2;
const BYTECODE: usize = 96;
const LINES: usize = 12;
const VARIABLES: usize = 8;

fn tasks(count: usize) -> TaskTable {
    let task = |i: usize| TaskEntry {
        task_id: TaskId::new(i as u16),
        priority: i as u16,
        task_type: TaskType::Cyclic,
        flags: 1,
        interval_us: 20_000,
        single_var_index: VarIndex::NO_SINGLE_VAR,
        watchdog_us: 50_000,
        input_image_offset: 0,
        output_image_offset: 0,
        reserved: [0; 4],
    };
    let program = |i: usize| ProgramInstanceEntry {
        instance_id: InstanceId::new(i as u16),
        task_id: TaskId::new(i as u16),
        entry_function_id: FunctionId::SCAN,
        var_table_offset: 64 * i as u16,
        var_table_count: 64,
        fb_instance_offset: 0,
        fb_instance_count: 4,
        init_function_id: FunctionId::INIT,
    };
    TaskTable {
        shared_globals_size: 16,
        tasks: (0..count).map(task).collect(),
        programs: (0..count).map(program).collect(),
    }
}

/// An FB type of six fields, an array and a user FB for each unit.
fn types(units: usize) -> TypeSection {
    let field = |i: usize| FieldEntry {
        field_type: FieldType::from_u8((i % 6) as u8).expect("a field type"),
        field_extra: 0,
    };
    let fb_type = |u: usize| FbTypeDescriptor {
        type_id: FbTypeId::new(u as u16),
        fields: (0..6).map(field).collect(),
    };
    let user_fb = |u: usize| UserFbDescriptor {
        type_id: FbTypeId::new(u as u16),
        function_id: FunctionId::new((FUNCTIONS * u) as u16),
        var_offset: 64,
        num_fields: 6,
    };
    TypeSection {
        fb_types: (0..units).map(fb_type).collect(),
        array_descriptors: (0..units).map(|u| ArrayDescriptor::new((u % 7) as u8, 10 + u as u32, 20)).collect(),
        user_fb_types: (0..units).map(user_fb).collect(),
    }
}

/// Twelve constants for each unit: ten numbers and two strings.
fn mixed_constants(units: usize) -> ConstantPool {
    let mut pool = ConstantPool::default();
    for u in 0..units {
        for i in 0..6 {
            pool.push(ConstEntry::i32(270 + 16 * u as i32 + i));
        }
        pool.push(ConstEntry::f32(27.5));
        pool.push(ConstEntry::f32(u as f32));
        pool.push(ConstEntry::i64(20_000 * u as i64));
        pool.push(ConstEntry::f64(0.25 * u as f64));
        pool.push(ConstEntry::string(format!("malaxer {u} paste too warm").into_bytes()));
        pool.push(ConstEntry::wstring(b"O\0K\0".to_vec()));
    }
    pool
}

/// So many functions of the same length, and behind them `more` bytes of bytecode.
fn code(functions: usize, more: usize) -> CodeSection {
    let mut bytes = Vec::new();
    for i in 0..functions {
        bytes.extend((i as u16).to_le_bytes());
        bytes.extend(((i * BYTECODE) as u32).to_le_bytes());
        bytes.extend((BYTECODE as u32).to_le_bytes());
        for n in [8u16, 4, 2] {
            bytes.extend(n.to_le_bytes());
        }
    }
    bytes.extend((0..functions * BYTECODE + more).map(|i| (i * 31 % 251) as u8));
    let size = bytes.len() as u32;
    CodeSection::read_from(&mut &bytes[..], functions as u16, size).expect("a code section")
}

fn lines(functions: usize) -> Vec<LineMapEntry> {
    let line = |i: usize| LineMapEntry {
        function_id: FunctionId::new((i / LINES) as u16),
        bytecode_offset: (i % LINES * BYTECODE / LINES) as u16,
        file_id: SourceFileId::new((i / LINES / 8) as u16),
        source_line: SourceLine::new(1 + i as u16),
        source_column: SourceColumn::new(5),
    };
    (0..functions * LINES).map(line).collect()
}

fn variable(i: usize) -> VarNameEntry {
    let types = ["BOOL", "INT", "DINT", "REAL", "STRING", "TIME", "MALAXER", "ARRAY"];
    VarNameEntry {
        var_index: VarIndex::new(i as u16),
        function_id: FunctionId::new((i / VARIABLES) as u16),
        var_section: var_section::VAR,
        iec_type_tag: iec_type_tag::DINT,
        name: format!("paste_limit_{i}"),
        type_name: types[i % types.len()].to_string(),
    }
}

/// For each unit two functions with twelve lines each, eight variables and a string; for four units a source file and an
/// enumeration.
fn debug(units: usize) -> DebugSection {
    let groups = units.div_ceil(4);
    let name = |i: usize| FuncNameEntry {
        function_id: FunctionId::new(i as u16),
        name: format!("MALAXER_STEP_{i}"),
    };
    let layout = |u: usize| StringLayoutEntry {
        var_index: VarIndex::new((VARIABLES * u) as u16),
        data_offset: 64 * u as u32,
        max_length: 20,
    };
    let source = |g: usize| SourceFileEntry {
        path: format!("mill/source/malaxer_{g}.st"),
        content_hash: [g as u8; 32],
    };
    let enumeration = |g: usize| EnumDefEntry {
        type_name: format!("PHASE_{g}"),
        values: ["FILLING", "WORKING", "EMPTYING", "CLEANING"].map(str::to_string).to_vec(),
    };
    DebugSection {
        var_names: (0..VARIABLES * units).map(variable).collect(),
        func_names: (0..FUNCTIONS * units).map(name).collect(),
        line_map: lines(FUNCTIONS * units),
        string_layouts: (0..units).map(layout).collect(),
        source_files: (0..groups).map(source).collect(),
        enum_defs: (0..groups).map(enumeration).collect(),
    }
}

/// A control program as a compiler writes it, of so many function blocks.
fn program(units: usize, more: usize) -> Container {
    Container {
        header: FileHeader { max_stack_depth: 32, num_variables: 64, ..FileHeader::default() },
        task_table: tasks(1 + units / 16),
        type_section: Some(types(units)),
        constant_pool: mixed_constants(units),
        code: code(FUNCTIONS * units, more),
        debug_section: Some(debug(units)),
    }
}

/// One task, one function, and what one section is filled with.
fn filled(constant_pool: ConstantPool, debug_section: Option<DebugSection>, more: usize) -> Container {
    Container {
        header: FileHeader::default(),
        task_table: tasks(1),
        type_section: None,
        constant_pool,
        code: code(1, more),
        debug_section,
    }
}

fn pool(count: usize, entry: fn(usize) -> ConstEntry) -> ConstantPool {
    let mut pool = ConstantPool::default();
    (0..count).for_each(|i| pool.push(entry(i)));
    pool
}

/// 16 constants of four bytes for each unit.
fn short_constants(units: usize, more: usize) -> Container {
    filled(pool(16 * units, |i| ConstEntry::i32(i as i32)), None, more)
}

/// 16 constants of eight bytes for each unit.
fn long_constants(units: usize, more: usize) -> Container {
    filled(pool(16 * units, |i| ConstEntry::i64(i as i64)), None, more)
}

/// A variable for each unit, with these names.
fn named(units: usize, more: usize, name: fn(usize) -> String, type_name: String) -> Container {
    let entry = |i: usize| VarNameEntry { name: name(i), type_name: type_name.clone(), ..variable(i) };
    let debug = DebugSection { var_names: (0..units).map(entry).collect(), ..DebugSection::default() };
    filled(ConstantPool::default(), Some(debug), more)
}

/// Names of 250 bytes: nearly all is text.
fn texts(units: usize, more: usize) -> Container {
    named(units, more, |i| format!("{i:0250}"), "T".repeat(250))
}

/// The same of letters that have two or three bytes each, and of words in which some letters have two.
fn two_byte_texts(units: usize, more: usize) -> Container {
    named(units, more, |_| "\u{3bb}".repeat(125), "\u{3c0}".repeat(125))
}

fn three_byte_texts(units: usize, more: usize) -> Container {
    named(units, more, |_| "\u{6cb9}".repeat(83), "\u{6a04}".repeat(83))
}

fn mixed_texts(units: usize, more: usize) -> Container {
    named(units, more, |_| "Gr\u{f6}\u{df}e_des_Beh\u{e4}lters_".repeat(10), "\u{d6}lm\u{fc}hle_".repeat(22))
}

fn written(container: &Container) -> Vec<u8> {
    let mut bytes = Vec::new();
    container.write_to(&mut bytes).expect("a container");
    bytes
}

/// As many units as the length allows; what is missing is bytecode.
fn fitted(length: usize, make: fn(usize, usize) -> Container) -> Vec<u8> {
    let mut units = 1;
    while written(&make(units + 1, 0)).len() <= length {
        units += 1;
    }
    let more = length - written(&make(units, 0)).len();
    written(&make(units, more))
}

/// The shapes at a length, hashed as the writer hashes them.
pub fn hashed(length: usize) -> [File; 7] {
    [
        File { shape: PROGRAM, bytes: fitted(length, program) },
        File { shape: SHORT_CONSTANTS, bytes: fitted(length, short_constants) },
        File { shape: LONG_CONSTANTS, bytes: fitted(length, long_constants) },
        File { shape: TEXTS, bytes: fitted(length, texts) },
        File { shape: TWO_BYTE_TEXTS, bytes: fitted(length, two_byte_texts) },
        File { shape: THREE_BYTE_TEXTS, bytes: fitted(length, three_byte_texts) },
        File { shape: MIXED_TEXTS, bytes: fitted(length, mixed_texts) },
    ]
}

/// The same file without its content hash and debug hash.
pub fn unhashed(file: &File) -> File {
    let mut bytes = file.bytes.clone();
    bytes[CONTENT_HASH_RANGE].fill(0);
    bytes[DEBUG_HASH_RANGE].fill(0);
    File { shape: file.shape, bytes }
}

/// The file with its debug section's bytes as rows of lines, each table empty; none but for one shape.
pub fn empty_tables(file: &File) -> Option<File> {
    if file.shape != TEXTS {
        return None;
    }
    let header = FileHeader::from_bytes(file.bytes[..256].try_into().expect("a header")).expect("a header");
    let mut bytes = file.bytes.clone();
    let section = &mut bytes[header.debug_section_offset as usize..][..header.debug_section_size as usize];
    let rows = (section.len() - 2) / 10;
    section.fill(0);
    section[..2].copy_from_slice(&(rows as u16).to_le_bytes());
    (0..rows).for_each(|row| section[2 + 8 * row] = 1);
    Some(File { shape: EMPTY_TABLES, bytes })
}

/// The file with the last byte of its debug section, which is a name's, no longer UTF-8; none for a shape without such names.
pub fn unreadable(file: &File) -> Option<File> {
    let shape = match file.shape {
        TEXTS => BAD_TEXTS,
        MIXED_TEXTS => BAD_MIXED_TEXTS,
        _ => return None,
    };
    let header = FileHeader::from_bytes(file.bytes[..256].try_into().expect("a header")).expect("a header");
    let mut bytes = file.bytes.clone();
    bytes[(header.debug_section_offset + header.debug_section_size - 1) as usize] = 0xE9;
    Some(File { shape, bytes })
}
