//! The calls as a program, for scripts and for programs that call no library.
//!
//!     chieftables accept GROUP            nothing
//!     chieftables measure GROUP           the words that a build wants
//!     chieftables commutative GROUP       yes or no
//!     chieftables build GROUP             the table text
//!     chieftables check GROUP TABLE       nothing
//!
//! GROUP and TABLE are files with a presentation text and a table text; `-` is the standard input. It ends with 0; with 1 if the
//! library refuses, and then a line with number and sentence is on the standard error; with 2 if a file cannot be read or the
//! call is none of these.

use std::io::{Read, Write};

enum Failure {
    Refused(chieftables::Refusal),
    Usage(String),
}

impl From<chieftables::Refusal> for Failure {
    fn from(refusal: chieftables::Refusal) -> Failure {
        Failure::Refused(refusal)
    }
}

/// The bytes of a file, or of the standard input.
fn bytes(path: &str) -> Result<Vec<u8>, Failure> {
    let mut bytes = Vec::new();
    let read = match path {
        "-" => std::io::stdin().read_to_end(&mut bytes).map(drop),
        _ => std::fs::read(path).map(|file| bytes = file),
    };
    read.map(|()| bytes).map_err(|error| Failure::Usage(format!("{path}: {error}")))
}

/// What is printed.
fn run(arguments: &[&str]) -> Result<Vec<u8>, Failure> {
    match arguments {
        ["accept", group] => Ok(chieftables::accept(&bytes(group)?).map(|()| Vec::new())?),
        ["measure", group] => Ok(format!("{}\n", chieftables::measure(&bytes(group)?)?).into_bytes()),
        ["commutative", group] => Ok(if chieftables::commutative(&bytes(group)?)? { b"yes\n".to_vec() } else { b"no\n".to_vec() }),
        ["build", group] => Ok(chieftables::write_table(chieftables::build(&bytes(group)?)?.words())?),
        ["check", group, table] => {
            let group = bytes(group)?;
            chieftables::accept(&group)?;
            chieftables::check(&group, &chieftables::read_table(&bytes(table)?)?)?;
            Ok(Vec::new())
        }
        _ => Err(Failure::Usage("usage: chieftables accept|measure|commutative|build GROUP, or chieftables check GROUP TABLE".into())),
    }
}

fn main() {
    let arguments: Vec<String> = std::env::args().skip(1).collect();
    let arguments: Vec<&str> = arguments.iter().map(String::as_str).collect();
    let (message, status) = match run(&arguments) {
        Ok(printed) => match std::io::stdout().write_all(&printed) {
            Ok(()) => return,
            Err(error) => (error.to_string(), 2),
        },
        Err(Failure::Refused(refusal)) => (refusal.to_string(), 1),
        Err(Failure::Usage(message)) => (message, 2),
    };
    eprintln!("{message}");
    std::process::exit(status);
}
