//! What is asked of both sides about one file: every lookup, with every index and one past it.

use ironplc_container::debug_section::DebugSection;
use ironplc_container::Container;

use crate::bytes::HEADER;
use crate::prng::Prng;
use crate::reading::Reading;

/// Every lookup, once.
pub const LOOKUPS: [&str; 36] = [
    "hash", "utf8", "masked_header", "header", "tasks", "task", "program", "types", "fb_type", "field", "array",
    "array_size", "user_fb", "constants", "constant", "get_i32", "get_u32", "get_i64", "get_u64", "get_f32", "get_f64",
    "get_str", "char_width", "code", "function", "bytecode", "debug", "in_force", "line_entry", "line", "variable",
    "function_name", "string_layout", "source_file", "enumeration", "enumeration_value",
];

/// A lookup and its arguments. Its text is the lookup's name and the arguments, parted by blanks.
#[derive(Clone, Debug, PartialEq, Eq)]
pub struct Question {
    pub lookup: &'static str,
    pub arguments: Vec<u32>,
}

impl Question {
    pub fn text(&self) -> String {
        let mut text = self.lookup.to_string();
        for argument in &self.arguments {
            text.push_str(&format!(" {argument}"));
        }
        text
    }
}

/// Tables up to this length are asked at every index; longer ones at both ends and at some places between.
const WHOLE: usize = 64;

/// The indexes to ask a table of `count` entries at: one past the last among them.
fn indexes(count: usize, all: bool, prng: &mut Prng) -> Vec<u32> {
    if all || count <= WHOLE {
        return (0..=count as u32).collect();
    }
    let mut picked: Vec<u32> = (0..16).chain(count as u32 - 16..=count as u32).collect();
    picked.extend((0..32).map(|_| prng.below(count) as u32));
    picked.sort_unstable();
    picked.dedup();
    picked
}

struct Asking {
    questions: Vec<Question>,
    all: bool,
    prng: Prng,
}

impl Asking {
    fn ask(&mut self, lookup: &'static str, arguments: &[u32]) {
        assert!(LOOKUPS.contains(&lookup), "{lookup} is not listed");
        self.questions.push(Question {
            lookup,
            arguments: arguments.to_vec(),
        });
    }

    fn each(&mut self, lookups: &[&'static str], count: usize) {
        for index in indexes(count, self.all, &mut self.prng) {
            for lookup in lookups {
                self.ask(lookup, &[index]);
            }
        }
    }

    /// A table in a table: `inner` has the count of each outer entry.
    fn nested(&mut self, lookup: &'static str, inner: &[usize]) {
        let mut outer = indexes(inner.len(), self.all, &mut self.prng);
        if !self.all && outer.len() > 16 {
            let keep = outer.len() - 16;
            outer.drain(8..8 + keep);
        }
        for i in outer {
            let count = inner.get(i as usize).copied().unwrap_or(0);
            for j in indexes(count, self.all, &mut self.prng) {
                self.ask(lookup, &[i, j]);
            }
        }
    }

    /// Line queries around the map's own entries, and some others.
    fn lines(&mut self, debug: Option<&DebugSection>) {
        let map = debug.map_or(&[][..], |d| &d.line_map);
        let mut queries = vec![(0u16, 0u16), (0, 65_535), (65_535, 0), (65_535, 65_535)];
        for _ in 0..map.len().min(12) {
            let entry = &map[self.prng.below(map.len())];
            let (f, o) = (entry.function_id.raw(), entry.bytecode_offset);
            queries.extend([(f, o), (f, o.wrapping_sub(1)), (f, o.wrapping_add(1))]);
            queries.extend([(f, 0), (f, 65_535), (f.wrapping_add(1), o), (f.wrapping_sub(1), o)]);
        }
        for _ in 0..4 {
            queries.push((self.prng.u16(), self.prng.u16()));
        }
        queries.sort_unstable();
        queries.dedup();
        for (f, o) in queries {
            self.ask("line", &[f.into(), o.into()]);
        }
    }

    fn debug(&mut self, debug: Option<&DebugSection>) {
        let none = DebugSection::default();
        let d = debug.unwrap_or(&none);
        self.ask("debug", &[]);
        self.ask("in_force", &[]);
        self.each(&["line_entry"], d.line_map.len());
        self.lines(debug);
        self.each(&["variable"], d.var_names.len());
        self.each(&["function_name"], d.func_names.len());
        self.each(&["string_layout"], d.string_layouts.len());
        self.each(&["source_file"], d.source_files.len());
        self.each(&["enumeration"], d.enum_defs.len());
        let values: Vec<usize> = d.enum_defs.iter().map(|e| e.values.len()).collect();
        self.nested("enumeration_value", &values);
    }

    /// The hash and the longest good UTF-8 start of parts of the file: all of it, lengths around the block and chunk sizes,
    /// and some short ones for the text.
    fn leaves(&mut self, length: usize) {
        self.ask("hash", &[0, length as u32]);
        for size in [0, 64, 1024, 2048, 3072] {
            let size = (size + self.prng.below(3)).saturating_sub(1).min(length);
            let at = self.prng.below(length - size + 1);
            self.ask("hash", &[at as u32, size as u32]);
        }
        self.ask("utf8", &[0, length as u32]);
        for _ in 0..6 {
            let at = self.prng.below(length + 1);
            let size = self.prng.below(12).min(length - at);
            self.ask("utf8", &[at as u32, size as u32]);
        }
    }

    fn loaded(&mut self, c: &Container) {
        self.ask("header", &[]);
        self.ask("tasks", &[]);
        self.each(&["task"], c.task_table.tasks.len());
        self.each(&["program"], c.task_table.programs.len());
        self.ask("types", &[]);
        let none = Default::default();
        let types = c.type_section.as_ref().unwrap_or(&none);
        self.each(&["fb_type"], types.fb_types.len());
        let fields: Vec<usize> = types.fb_types.iter().map(|t| t.fields.len()).collect();
        self.nested("field", &fields);
        self.each(&["array", "array_size"], types.array_descriptors.len());
        self.each(&["user_fb"], types.user_fb_types.len());
        self.ask("constants", &[]);
        let getters = [
            "constant", "get_i32", "get_u32", "get_i64", "get_u64", "get_f32", "get_f64", "get_str", "char_width",
        ];
        self.each(&getters, c.constant_pool.len());
        self.ask("code", &[]);
        self.each(&["function", "bytecode"], c.code.functions.len());
        self.debug(c.debug_section.as_ref());
    }
}

/// The questions that are about more than one entry of a table.
const WHOLE_TABLES: [&str; 7] = ["header", "tasks", "types", "constants", "code", "debug", "in_force"];

/// Lookups in the tables of a container; a missing table is asked at index 0.
pub fn of_tables(c: &Container, seed: u64) -> Vec<Question> {
    let mut asking = Asking {
        questions: Vec::new(),
        all: false,
        prng: Prng::new(seed),
    };
    asking.loaded(c);
    asking.questions.retain(|q| !WHOLE_TABLES.contains(&q.lookup));
    asking.questions
}

/// The questions for one file. The lookups are asked of files that load; the leaves of every file.
pub fn questions(file: &[u8], reading: &Reading, all: bool) -> Vec<Question> {
    let mut asking = Asking {
        questions: Vec::new(),
        all,
        prng: Prng::new(file.len() as u64),
    };
    asking.leaves(file.len());
    if file.len() >= HEADER {
        asking.ask("masked_header", &[]);
    }
    if let Reading::Loaded(c) = reading {
        asking.loaded(c);
    }
    asking.questions
}
