//! The listing as document 01's lister prints it ("Mill file M"), made from the Rust's tables.

use std::fmt::Write;

use ironplc_container::constant_pool::ConstEntry;
use ironplc_container::debug_section::LineMapEntry;
use ironplc_container::task_table::{ProgramInstanceEntry, TaskEntry};
use ironplc_container::type_section::{ArrayDescriptor, UserFbDescriptor};
use ironplc_container::{code_section::FuncEntry, Container};

use crate::bytes::hex;
use crate::reading::Reading;

/// The bytes that an entry keeps: eight for types 0 to 5. The Rust has them in a private field that its `bytes()` cuts to
/// four for 32-bit types; its derived `Debug` shows all eight.
pub fn kept(entry: &ConstEntry) -> Vec<u8> {
    if entry.const_type.is_string_like() {
        return entry.bytes().to_vec();
    }
    let shown = format!("{entry:?}");
    let from = shown.find("primitive: [").expect("ConstEntry shows its bytes") + "primitive: [".len();
    let to = from + shown[from..].find(']').expect("ConstEntry shows its bytes");
    shown[from..to]
        .split(", ")
        .map(|number| number.parse().expect("ConstEntry shows bytes"))
        .collect()
}

pub fn task(t: &TaskEntry) -> String {
    format!(
        "{} {} {} {} {} {} {} {} {}",
        t.task_id,
        t.priority,
        t.task_type as u8,
        t.flags,
        t.interval_us,
        t.single_var_index,
        t.watchdog_us,
        t.input_image_offset,
        t.output_image_offset
    )
}

pub fn program(p: &ProgramInstanceEntry) -> String {
    format!(
        "{} {} {} {} {} {} {} {}",
        p.instance_id,
        p.task_id,
        p.entry_function_id,
        p.var_table_offset,
        p.var_table_count,
        p.fb_instance_offset,
        p.fb_instance_count,
        p.init_function_id
    )
}

pub fn array(a: &ArrayDescriptor) -> String {
    format!(
        "{} {} {} {}",
        a.element_type, a.total_elements, a.element_extra, a.element_stride
    )
}

pub fn user_fb(u: &UserFbDescriptor) -> String {
    format!("{} {} {} {}", u.type_id, u.function_id, u.var_offset, u.num_fields)
}

pub fn function(f: &FuncEntry) -> String {
    format!(
        "{} {} {} {} {} {}",
        f.function_id, f.code_offset, f.code_length, f.max_stack_depth, f.num_locals, f.num_params
    )
}

pub fn line(l: &LineMapEntry) -> String {
    format!(
        "{} {} {} {} {}",
        l.function_id, l.bytecode_offset, l.file_id, l.source_line, l.source_column
    )
}

/// The counts of tags 1, 2, 3, 4, 6, 9, or `none`.
pub fn debug_counts(c: &Container) -> String {
    match &c.debug_section {
        None => "none".to_string(),
        Some(d) => format!(
            "{} {} {} {} {} {}",
            d.line_map.len(),
            d.var_names.len(),
            d.func_names.len(),
            d.string_layouts.len(),
            d.source_files.len(),
            d.enum_defs.len()
        ),
    }
}

fn types(out: &mut String, c: &Container) {
    let Some(types) = &c.type_section else { return };
    for fb in &types.fb_types {
        writeln!(out, "fbtype {} {}", fb.type_id, fb.fields.len()).unwrap();
        for field in &fb.fields {
            writeln!(out, "field {} {}", field.field_type as u8, field.field_extra).unwrap();
        }
    }
    for (i, a) in types.array_descriptors.iter().enumerate() {
        let size = a.byte_size().map_or("-".to_string(), |size| size.to_string());
        writeln!(out, "array {i} {} {size}", array(a)).unwrap();
    }
    for u in &types.user_fb_types {
        writeln!(out, "userfb {}", user_fb(u)).unwrap();
    }
}

/// The listing of a container; `kept` tells what an entry of the constant pool keeps.
pub fn loaded(c: &Container, kept: fn(&ConstEntry) -> Vec<u8>) -> String {
    let mut out = String::new();
    let h = &c.header;
    writeln!(out, "container {} {} {}", h.format_version, h.profile, h.flags).unwrap();
    for t in &c.task_table.tasks {
        writeln!(out, "task {}", task(t)).unwrap();
    }
    for p in &c.task_table.programs {
        writeln!(out, "program {}", program(p)).unwrap();
    }
    types(&mut out, c);
    for (i, entry) in c.constant_pool.iter().enumerate() {
        writeln!(out, "constant {i} {} {}", entry.const_type as u8, hex(&kept(entry))).unwrap();
    }
    for f in &c.code.functions {
        writeln!(out, "function {}", function(f)).unwrap();
    }
    writeln!(out, "debug {}", debug_counts(c)).unwrap();
    for l in c.debug_section.iter().flat_map(|d| &d.line_map) {
        writeln!(out, "line {}", line(l)).unwrap();
    }
    out.push_str("end\n");
    out
}

pub fn listing(reading: &Reading) -> String {
    match reading {
        Reading::Loaded(c) => loaded(c, kept),
        Reading::Refused(line) => format!("{line}\n"),
        Reading::Panicked => "refused 4 -\n".to_string(),
        Reading::Unexpected(what) => format!("unexpected: {what}\n"),
    }
}
