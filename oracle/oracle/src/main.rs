//! The oracle: the Rust container reader against the port.
//!
//!     oracle compare N SEED WAY PROGRAM [DIR]  N files of a run on both sides; differing ones go to DIR.
//!                                             WAY: lister or replier, with its PROGRAM; library, with any word
//!     oracle survey N SEED                    the Rust alone: what the files of a run exercise
//!     oracle list | reply                     the Rust's listing (and answers) of the file on standard input
//!     oracle make SEED INDEX                  one file of a run, to standard output
//!     oracle replies STORED                   the Rust's listings against stored ones
//!     oracle vectors PUBLISHED                the supplied hash against BLAKE3's published vectors

mod answers;
mod bytes;
mod compare;
#[cfg(feature = "library")]
mod functions;
mod generate;
#[cfg(any(feature = "library", test))]
mod library;
mod listing;
mod port;
mod prng;
mod questions;
mod reading;
mod records;
mod sections;

use std::io::{Read, Write};
use std::process::exit;

use port::Port;

fn number(word: &str) -> u64 {
    word.parse().unwrap_or_else(|_| usage(&format!("not a number: {word}")))
}

fn usage(what: &str) -> ! {
    eprintln!("oracle: {what}");
    eprintln!("oracle compare N SEED WAY PROGRAM [DIR] | survey N SEED | list | reply | make SEED INDEX | replies STORED | vectors PUBLISHED");
    exit(2)
}

fn input() -> Vec<u8> {
    let mut file = Vec::new();
    std::io::stdin().lock().read_to_end(&mut file).expect("standard input");
    file
}

fn compare(words: &[&str]) -> bool {
    let [count, seed, way, program, rest @ ..] = words else {
        usage("compare: words are missing")
    };
    let port = match *way {
        "lister" => Port::Lister(program.to_string()),
        "replier" => Port::Replier(program.to_string()),
        #[cfg(feature = "library")]
        "library" => Port::Library,
        _ => usage(&format!("no such way to the port: {way}")),
    };
    compare::run(number(count), number(seed), &port, rest.first().copied())
}

fn main() {
    std::panic::set_hook(Box::new(|info| {
        // The Rust's own panics are answers, caught in `reading`; only those of this program are shown.
        let own = info.location().is_some_and(|place| place.file().contains("oracle/src"));
        if own {
            eprintln!("oracle: {info}");
        }
    }));
    let words: Vec<String> = std::env::args().skip(1).collect();
    let words: Vec<&str> = words.iter().map(String::as_str).collect();
    let good = match words[..] {
        ["list"] => {
            print!("{}", listing::listing(&reading::read(&input())));
            true
        }
        ["reply"] => {
            print!("{}", compare::reply(&input()));
            true
        }
        ["make", seed, index] => {
            let made = generate::file(number(seed), number(index));
            std::io::stdout().write_all(&made.bytes).is_ok()
        }
        ["survey", count, seed] => compare::survey(number(count), number(seed)),
        ["vectors", published] => compare::vectors(published),
        ["replies", stored] => compare::replies(stored),
        ["compare", ref rest @ ..] => compare(rest),
        _ => usage("what is to be done?"),
    };
    exit(if good { 0 } else { 1 })
}
