//! Lookups over a record that is not the file's own: another file's, or one that no file has. The Rust has no such lookup; document
//! 01 says what it answers: "the section is read alone at the record's place, size and function count". So the Rust's own section
//! readers are run on that part of the file, and what is added above them is the order of refusals: 10, then 16 or 15 for absent
//! types or debug, then 4 for the place (debug: 15), then the section's own refusal (debug: 15), then the lookup's.

use ironplc_container::code_section::CodeSection;
use ironplc_container::constant_pool::ConstantPool;
use ironplc_container::debug_section::DebugSection;
use ironplc_container::task_table::TaskTable;
use ironplc_container::type_section::TypeSection;
use ironplc_container::{Container, ContainerError};

use crate::answers;
use crate::bytes::HEADER;
use crate::generate;
use crate::prng::Prng;
use crate::questions::{self, Question};
use crate::reading::{directory_and_runtime, read, refusal, Reading, LIMIT};

/// A record as `container_load` writes it: a 0, then version, profile, flags, seven places, eleven runtime numbers, and counts, at
/// these places. The rows in force follow, which no lookup reads.
#[derive(Clone)]
pub struct Record(pub Vec<u64>);

pub const RECORD: usize = 44;
pub const PLACES: usize = 4;
pub const FUNCTIONS: usize = 24;
pub const TASKS: usize = 29;
pub const TYPES: usize = 32;
pub const CONSTANTS: usize = 36;
pub const DEBUG: usize = 37;

/// The sections among the seven places.
const TYPES_PLACE: usize = 2;
const TASKS_PLACE: usize = 3;
const CONSTANTS_PLACE: usize = 4;
const CODE_PLACE: usize = 5;
const DEBUG_PLACE: usize = 6;

/// A flag and counts: all 0 where there is nothing to count.
fn counted(counts: Option<Vec<usize>>, length: usize) -> Vec<u64> {
    let mut numbers = vec![counts.is_some() as u64];
    numbers.extend(counts.unwrap_or_default().iter().map(|n| *n as u64));
    numbers.resize(length, 0);
    numbers
}

impl Record {
    /// The record of a file that the Rust loads.
    fn of(c: &Container) -> Self {
        let h = &c.header;
        let mut numbers = vec![0, h.format_version.into(), h.profile.into(), h.flags.into()];
        numbers.extend(directory_and_runtime(h).iter().map(|n| u64::from(*n)));
        let t = &c.task_table;
        numbers.extend([t.tasks.len() as u64, t.programs.len() as u64, t.shared_globals_size.into()]);
        let types = c.type_section.as_ref();
        let types = types.map(|t| vec![t.fb_types.len(), t.array_descriptors.len(), t.user_fb_types.len()]);
        numbers.extend(counted(types, CONSTANTS - TYPES));
        numbers.push(c.constant_pool.len() as u64);
        let debug = c.debug_section.as_ref().map(|d| {
            let names = [d.line_map.len(), d.var_names.len(), d.func_names.len()];
            [names, [d.string_layouts.len(), d.source_files.len(), d.enum_defs.len()]].concat()
        });
        numbers.extend(counted(debug, RECORD - DEBUG));
        assert_eq!(numbers.len(), RECORD, "the numbers of a record");
        Record(numbers)
    }

    /// A record that no file need have: one thing of it is another.
    fn altered(&self, p: &mut Prng) -> Self {
        let mut numbers = self.0.clone();
        let place = PLACES + 2 * (TYPES_PLACE + p.below(DEBUG_PLACE - TYPES_PLACE + 1));
        let other = PLACES + 2 * (TYPES_PLACE + p.below(DEBUG_PLACE - TYPES_PLACE + 1));
        match p.below(8) {
            0 => numbers[place] = u64::from(p.u32()),
            1 => numbers[place + 1] = u64::from(p.u32()),
            2 => numbers[place + 1] = numbers[place + 1].saturating_sub(1 + p.below(3) as u64),
            3 => numbers[place] = (numbers[place] + 1 + p.below(3) as u64).min(u32::MAX.into()),
            4 => numbers[place..place + 2].copy_from_slice(&[self.0[other], self.0[other + 1]]),
            5 => numbers[FUNCTIONS] = p.u16().into(),
            6 => numbers[TYPES..CONSTANTS].copy_from_slice(&[1 - self.0[TYPES], 0, 0, 0]),
            _ => numbers[DEBUG..].copy_from_slice(&[1 - self.0[DEBUG], 0, 0, 0, 0, 0, 0]),
        }
        Record(numbers)
    }

    /// A section's part of the file, if it lies in the file behind the header.
    fn part<'a>(&self, file: &'a [u8], place: usize) -> Option<&'a [u8]> {
        let [offset, size] = [0, 1].map(|n| self.0[PLACES + 2 * place + n] as usize);
        if offset < HEADER {
            return None;
        }
        file.get(offset..offset + size)
    }
}

/// The sections of a file at a record's places, each read or refused.
struct Sections {
    tasks: Result<TaskTable, String>,
    types: Result<TypeSection, String>,
    constants: Result<ConstantPool, String>,
    code: Result<CodeSection, String>,
    debug: Result<DebugSection, String>,
}

fn refused<T>(number: u32) -> Result<T, String> {
    Err(format!("refused {number} -"))
}

fn section<T>(file: &[u8], record: &Record, place: usize, read: impl Fn(&[u8]) -> Result<T, ContainerError>) -> Result<T, String> {
    if file.len() > LIMIT {
        return refused(10);
    }
    let Some(part) = record.part(file, place) else { return refused(4) };
    read(part).map_err(|error| refusal(&error))
}

/// The same where a record says whether there is such a section.
fn optional<T>(file: &[u8], there: bool, absent: u32, section: Result<T, String>) -> Result<T, String> {
    if file.len() <= LIMIT && !there {
        return refused(absent);
    }
    section
}

fn sections(file: &[u8], record: &Record) -> Sections {
    let functions = record.0[FUNCTIONS] as u16;
    let size = record.0[PLACES + 2 * CODE_PLACE + 1] as u32;
    let types = section(file, record, TYPES_PLACE, |mut part| TypeSection::read_from(&mut part));
    let debug = section(file, record, DEBUG_PLACE, |mut part| DebugSection::read_from(&mut part));
    let debug = if file.len() <= LIMIT { debug.or_else(|_| refused(15)) } else { debug };
    Sections {
        tasks: section(file, record, TASKS_PLACE, |mut part| TaskTable::read_from(&mut part)),
        types: optional(file, record.0[TYPES] == 1, 16, types),
        constants: section(file, record, CONSTANTS_PLACE, |mut part| ConstantPool::read_from(&mut part)),
        code: section(file, record, CODE_PLACE, |mut part| CodeSection::read_from(&mut part, functions, size)),
        debug: optional(file, record.0[DEBUG] == 1, 15, debug),
    }
}

/// What one lookup answers: the refusal of its section, or the Rust's answer from it.
struct View {
    sections: Sections,
    container: Container,
}

impl View {
    fn of(file: &[u8], record: &Record, any: &Container) -> Self {
        let sections = sections(file, record);
        let container = Container {
            header: any.header.clone(),
            task_table: sections.tasks.clone().unwrap_or_default(),
            type_section: sections.types.clone().ok(),
            constant_pool: sections.constants.clone().unwrap_or_default(),
            code: sections.code.clone().unwrap_or_default(),
            debug_section: sections.debug.clone().ok(),
        };
        View { sections, container }
    }

    fn refusal(&self, lookup: &str) -> Option<&String> {
        match lookup {
            "task" | "program" => self.sections.tasks.as_ref().err(),
            "fb_type" | "field" | "array" | "array_size" | "user_fb" => self.sections.types.as_ref().err(),
            "function" | "bytecode" => self.sections.code.as_ref().err(),
            "line" | "line_entry" | "variable" | "function_name" | "string_layout" | "source_file" | "enumeration"
            | "enumeration_value" => self.sections.debug.as_ref().err(),
            _ => self.sections.constants.as_ref().err(),
        }
    }

    fn answer(&self, q: &Question) -> String {
        match self.refusal(q.lookup) {
            Some(refusal) => refusal.clone(),
            None => answers::loaded(&self.container, q).unwrap_or_else(|refusal| refusal),
        }
    }
}

/// At most so many lookups over one record.
const MOST: usize = 48;

/// Some of the lookups that the tables of a view suggest, of every kind.
fn asked(view: &View, p: &mut Prng) -> Vec<Question> {
    let mut all = questions::of_tables(&view.container, p.next());
    while all.len() > MOST {
        all.swap_remove(p.below(all.len()));
    }
    all
}

/// The first file of a run that the Rust loads.
fn first_that_loads(seed: u64) -> Box<Container> {
    let mut index = 0;
    loop {
        if let Reading::Loaded(c) = read(&generate::file(seed, index).bytes) {
            return c;
        }
        index += 1;
    }
}

/// The records to look up over in a file: another file's, and an altered one of the file itself or of the other. Which these are
/// follows from the file's bytes.
fn others(file: &[u8], p: &mut Prng) -> (Vec<Record>, Box<Container>) {
    let other = first_that_loads(p.next());
    let base = match read(file) {
        Reading::Loaded(own) if p.chance(70) => Record::of(&own),
        _ => Record::of(&other),
    };
    (vec![Record::of(&other), base.altered(p)], other)
}

/// The line of every lookup over other records, with the answer that `answer` gives for a record and a question, or the Rust's.
pub fn lines(file: &[u8], answer: Option<&dyn Fn(&Record, &Question) -> String>) -> Vec<String> {
    let start = file.iter().fold(file.len() as u64, |h, b| (h ^ u64::from(*b)).wrapping_mul(0x100_0000_01b3));
    let mut p = Prng::new(start);
    let (records, any) = others(file, &mut p);
    let mut lines = Vec::new();
    for (k, record) in records.iter().enumerate() {
        let view = View::of(file, record, &any);
        for q in asked(&view, &mut p) {
            let said = answer.map_or_else(|| view.answer(&q), |answer| answer(record, &q));
            lines.push(format!("over {k} {}: {said}", q.text()));
        }
    }
    lines
}

#[cfg(test)]
mod tests {
    use super::*;

    /// Over a file's own record the sections answer what the container does.
    #[test]
    fn own_record() {
        let mut loaded = 0;
        for index in 0..200 {
            let file = generate::file(2, index).bytes;
            let Reading::Loaded(c) = read(&file) else { continue };
            loaded += 1;
            let view = View::of(&file, &Record::of(&c), &c);
            for q in questions::of_tables(&c, index) {
                let own = answers::loaded(&c, &q).unwrap_or_else(|refusal| refusal);
                assert_eq!(view.answer(&q), own, "file {index}: {}", q.text());
            }
        }
        assert!(loaded > 50);
    }

    /// The order of refusals.
    #[test]
    fn refusals() {
        let c = first_that_loads(1);
        let mut record = Record::of(&c);
        let [task, array, line] = ["task", "array", "line_entry"].map(|lookup| Question { lookup, arguments: vec![0] });
        let said = |file: &[u8], record: &Record, q: &Question| View::of(file, record, &c).answer(q);
        assert_eq!(said(&[0; LIMIT + 1], &record, &task), "refused 10 -");
        assert_eq!(said(&[0; 255], &record, &task), "refused 4 -");
        record.0[TYPES] = 0;
        record.0[DEBUG] = 0;
        assert_eq!(said(&[0; 255], &record, &array), "refused 16 -");
        assert_eq!(said(&[0; 255], &record, &line), "refused 15 -");
        assert_eq!(said(&[0; LIMIT + 1], &record, &array), "refused 10 -");
        assert_eq!(said(&[0; LIMIT + 1], &record, &line), "refused 10 -");
        record.0[TYPES] = 1;
        record.0[DEBUG] = 1;
        assert_eq!(said(&[0; 255], &record, &array), "refused 4 -");
        assert_eq!(said(&[0; 255], &record, &line), "refused 15 -");
    }
}
