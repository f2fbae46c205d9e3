//! The port's side: one function, `ask`, over the ways to reach the port.

use std::io::Write;
use std::process::{Command, Stdio};

use crate::questions::Question;

/// How the port is reached.
pub enum Port {
    /// The program `lister`: the file on standard input, the listing on standard output. It has no lookups.
    Lister(String),
    /// A program that prints the listing and behind it the answers, as `oracle reply` does: another build of the Rust,
    /// to see that a fault is found.
    Replier(String),
    /// The static library `capi`, linked.
    #[cfg(feature = "library")]
    Library,
}

impl Port {
    /// Whether this way to the port answers such a question.
    #[cfg_attr(not(feature = "library"), allow(unused_variables))]
    pub fn has(&self, lookup: &str) -> bool {
        match self {
            #[cfg(feature = "library")]
            Port::Library => !crate::library::LEFT_OUT.contains(&lookup),
            _ => true,
        }
    }
}

/// What the port says about one file. `answers` is none where this way to the port has no lookups.
pub struct Reply {
    pub listing: String,
    pub answers: Option<Vec<String>>,
}

fn run(program: &str, word: Option<&str>, file: &[u8]) -> Result<String, String> {
    let mut child = Command::new(program)
        .args(word)
        .stdin(Stdio::piped())
        .stdout(Stdio::piped())
        .stderr(Stdio::null())
        .spawn()
        .map_err(|error| format!("{program}: {error}"))?;
    let mut input = child.stdin.take().expect("a pipe");
    // A program that stops reading early (the limit) closes the pipe: not an error.
    let bytes = file.to_vec();
    let writer = std::thread::spawn(move || {
        let _ = input.write_all(&bytes);
    });
    let output = child.wait_with_output().map_err(|error| format!("{program}: {error}"))?;
    let _ = writer.join();
    let text = String::from_utf8_lossy(&output.stdout).into_owned();
    if output.status.code().is_none() {
        return Ok(format!("{text}the program was ended: {}\n", output.status));
    }
    Ok(text)
}

/// The port's listing of a file and its answer to each question.
#[cfg_attr(not(feature = "library"), allow(unused_variables))]
pub fn ask(port: &Port, file: &[u8], questions: &[Question]) -> Result<Reply, String> {
    match port {
        Port::Lister(program) => Ok(Reply {
            listing: run(program, None, file)?,
            answers: None,
        }),
        Port::Replier(program) => {
            let text = run(program, Some("reply"), file)?;
            let (listing, answers) = text.split_once(".\n").unwrap_or((&text, ""));
            Ok(Reply {
                listing: listing.to_string(),
                answers: Some(answers.lines().map(str::to_string).collect()),
            })
        }
        #[cfg(feature = "library")]
        Port::Library => Ok(crate::library::ask(file, questions)),
    }
}
