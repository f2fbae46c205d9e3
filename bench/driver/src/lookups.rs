//! The lookups that are measured, and what the Rust's tables say to each.

use ironplc_container::debug_section::{LineMapEntry, VarNameEntry};
use ironplc_container::id_types::{ConstantIndex, FunctionId};
use ironplc_container::Container;

use crate::files::{PROGRAM, SHORT_CONSTANTS};
use crate::port::{self, Numbers, NO_NUMBERS};

/// A lookup in a table of a file of that shape. `second` is the offset of a line lookup.
pub struct Lookup {
    pub name: &'static str,
    pub shape: &'static str,
    pub kind: u16,
    pub second: u16,
    count: fn(&Container) -> usize,
    expected: fn(&Container, &[u8], usize) -> Vec<u64>,
}

pub const LOOKUPS: [Lookup; 5] = [
    Lookup { name: "get_i32", shape: SHORT_CONSTANTS, kind: 8, second: 0, count: constants, expected: get_i32 },
    Lookup { name: "array", shape: PROGRAM, kind: 4, second: 0, count: arrays, expected: array },
    Lookup { name: "function", shape: PROGRAM, kind: 16, second: 0, count: functions, expected: function },
    Lookup { name: "line", shape: PROGRAM, kind: 18, second: 50, count: functions, expected: line },
    Lookup { name: "variable", shape: PROGRAM, kind: 20, second: 0, count: variables, expected: variable },
];

impl Lookup {
    /// The first, the middle and the last index.
    pub fn indexes(&self, container: &Container) -> [u16; 3] {
        let count = (self.count)(container);
        [0, (count / 2) as u16, (count - 1) as u16]
    }

    /// Whether the port answers every index as the Rust's table has it, over the file and over its record.
    pub fn agrees(&self, file: &[u8], container: &Container) -> bool {
        let (mut record, mut out): (Numbers, Numbers) = (NO_NUMBERS, NO_NUMBERS);
        let numbers = port::load(file, &mut record);
        (0..(self.count)(container)).all(|index| {
            let expected = (self.expected)(container, file, index);
            let asked = port::ask(file, self.kind, index as u16, self.second, &mut out);
            let same = out[..asked] == expected;
            let looked = port::lookup(file, &record[..numbers], self.kind, index as u16, self.second, &mut out);
            same && out[..looked] == expected
        })
    }
}

fn constants(c: &Container) -> usize {
    c.constant_pool.len()
}

fn get_i32(c: &Container, _: &[u8], index: usize) -> Vec<u64> {
    let value = c.constant_pool.get_i32(ConstantIndex::new(index as u16)).expect("an I32");
    vec![0, value as i64 as u64]
}

fn arrays(c: &Container) -> usize {
    c.type_section.as_ref().map_or(0, |t| t.array_descriptors.len())
}

fn array(c: &Container, _: &[u8], index: usize) -> Vec<u64> {
    let a = &c.type_section.as_ref().expect("types").array_descriptors[index];
    vec![0, a.element_type.into(), a.total_elements.into(), a.element_extra.into(), a.element_stride.into()]
}

fn functions(c: &Container) -> usize {
    c.code.functions.len()
}

fn function(c: &Container, _: &[u8], index: usize) -> Vec<u64> {
    let f = &c.code.functions[index];
    let (id, offset, length) = (f.function_id.raw(), f.code_offset, f.code_length);
    let rest = [f.max_stack_depth, f.num_locals, f.num_params].map(u64::from);
    [vec![0, id.into(), offset.into(), length.into()], rest.to_vec()].concat()
}

fn line_numbers(l: &LineMapEntry) -> Vec<u64> {
    let numbers =
        [l.function_id.raw(), l.bytecode_offset, l.file_id.raw(), l.source_line.raw(), l.source_column.raw()];
    [vec![0], numbers.map(u64::from).to_vec()].concat()
}

fn line(c: &Container, _: &[u8], index: usize) -> Vec<u64> {
    let debug = c.debug_section.as_ref().expect("debug");
    let found = debug.lookup_source_location(FunctionId::new(index as u16), 50);
    line_numbers(&found.expect("a line"))
}

fn variables(c: &Container) -> usize {
    c.debug_section.as_ref().map_or(0, |d| d.var_names.len())
}

/// The place of the entry's name: it stands once in the file, its length before it and the type's length behind it.
fn place(file: &[u8], v: &VarNameEntry) -> usize {
    let (name, kind) = (v.name.as_bytes(), v.type_name.as_bytes());
    let entry = [&[name.len() as u8], name, &[kind.len() as u8], kind].concat();
    1 + file.windows(entry.len()).position(|bytes| bytes == entry).expect("the name is in the file")
}

fn variable(c: &Container, file: &[u8], index: usize) -> Vec<u64> {
    let v = &c.debug_section.as_ref().expect("debug").var_names[index];
    let (at, length) = (place(file, v), v.name.len());
    let numbers = [v.var_index.raw(), v.function_id.raw(), v.var_section.into(), v.iec_type_tag.into()];
    let places = [at, length, at + length + 1, v.type_name.len()].map(|n| n as u64);
    [vec![0], numbers.map(u64::from).to_vec(), places.to_vec()].concat()
}
