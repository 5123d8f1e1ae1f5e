//! Calls the static library: compares it with code that does the same differently, measures it, and draws its tables.
//!
//!     harness soak SECONDS [SEED]      compares for so long; ends with 1 at a difference
//!     harness rounds COUNT [SEED]      compares so many rounds of small groups
//!     harness compare FILE..           compares each text, its table, the same in other bases, and these tables damaged, in every word
//!                                      and at random; ends with 1 at a difference, or at a file that cannot be read
//!     harness answers FILE..           the answer to each text
//!     harness times FILE..             the answer, and the time of a call in microseconds: of the text, and of reading it alone
//!     harness builds FILE..            the answer, the lines of the table, and the time of a call, beside that of a plain copy
//!     harness checks FILE..            the answers to the table that is built and to one in other bases, and their times beside that
//!                                      of building and of reading it; as quotient the median over the turns in which all are
//!                                      timed, and the range of the middle half
//!     harness commutative FILE..       the answer and the yes or no, also as the degrees of the built table tell it, and the time of a
//!                                      call beside those of accepting and of building, by turns
//!     harness tables LINES..           so many lines written as table text and read back: the bytes, and the median times
//!     harness sums LINES..             so many lines copied with a sum of two exponents each, made by a comparison and by arithmetic
//!                                      alone: the time of a line, and the quotient
//!     harness bench FILE..             all calls on each text, nanoseconds a word
//!     harness growth                   the same on groups of order 64 to 16,384
//!     harness groups FOLDER COUNT ORDER [SEED]    so many presentation texts of at most that order, taken at random, in a folder
//!     harness draw FILE                the character graph of a presentation text, as SVG
//!
//! Build: `cargo build --release --manifest-path harness/Cargo.toml`, which leaves it in target/cargo/release.

mod bench;
mod compare;
mod comparison;
mod draw;
mod groups;
mod naive;
mod random;
mod soak;
mod tables;
mod times;

use comparison::Comparison;
use random::Random;

const USAGE: &str =
    "usage: harness soak SECONDS [SEED] | rounds COUNT [SEED] | compare|answers|times|builds|checks|commutative|bench FILE.. | tables|sums LINES.. | growth | groups FOLDER COUNT ORDER [SEED] | draw FILE";

/// A number among the arguments.
fn number(argument: Option<&String>) -> Option<u64> {
    argument?.parse().ok()
}

/// The seed that is given, or one from the clock.
fn seed(argument: Option<&String>) -> u64 {
    let clock = std::time::UNIX_EPOCH.elapsed().map_or(1, |time| time.as_secs());
    number(argument).unwrap_or(clock)
}

/// Prints the picture of a text.
fn drawn(text: &[u8], path: &str) {
    match draw::picture(text) {
        Ok(picture) => print!("{picture}"),
        Err(refusal) => {
            eprintln!("{path}: {refusal}");
            std::process::exit(1);
        }
    }
}

/// Writes presentation texts into a folder, one file each.
fn written(arguments: &[String]) {
    let (folder, count, order) = (&arguments[0], number(arguments.get(1)).unwrap_or(0), number(arguments.get(2)).unwrap_or(64));
    let mut random = Random::new(seed(arguments.get(3)));
    std::fs::create_dir_all(folder).expect("the folder can be made");
    for k in 0..count {
        let text = groups::random_group(&mut random, order as usize).text();
        std::fs::write(format!("{folder}/{k:06}.txt"), text).expect("the file can be written");
    }
}

fn main() {
    let arguments: Vec<String> = std::env::args().skip(1).collect();
    let command = arguments.first().map_or("", String::as_str);
    let rest = arguments.get(1..).unwrap_or_default();
    let each = |call: fn(&[u8], &str)| {
        for path in rest {
            call(&std::fs::read(path).unwrap_or_default(), path);
        }
    };
    match (command, number(rest.first())) {
        ("soak", Some(seconds)) => Comparison::new(seed(rest.get(1))).run(seconds),
        ("rounds", Some(count)) => Comparison::new(seed(rest.get(1))).rounds(count as usize),
        ("compare", _) if !rest.is_empty() => compare::files(rest),
        ("tables", _) => rest.iter().filter_map(|lines| lines.parse().ok()).for_each(times::tables),
        ("sums", _) => rest.iter().filter_map(|lines| lines.parse().ok()).for_each(times::sums),
        ("bench", _) => bench::texts(rest),
        ("growth", _) => bench::growth(),
        ("groups", _) if rest.len() >= 3 => written(rest),
        ("draw", _) => each(drawn),
        ("answers", _) => each(times::answers),
        ("times", _) => each(times::times),
        ("builds", _) => each(times::builds),
        ("checks", _) => each(times::checks),
        ("commutative", _) => each(times::commutative),
        _ => {
            eprintln!("{USAGE}");
            std::process::exit(2);
        }
    }
}
