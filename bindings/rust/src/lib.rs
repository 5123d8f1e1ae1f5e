//! Tables of irreducible representations of supersolvable groups, built and checked by the static library `chieftables`.
//!
//! A presentation text goes in, a [`Table`] comes out; a refusal is a [`Refusal`] with its number and a sentence.
//!
//! ```
//! let group = b"j i p e1 e2\n1 1 3 0 0\n2 2 2 0 0\n2 1 0 1 0\n";
//! let table = chieftables::build(group).unwrap();
//! let last = table.level(2).unwrap().representation(2).unwrap();
//! assert_eq!(last.degree(), 2);
//! let turn = last.generator(1).unwrap().column(1).unwrap();
//! assert_eq!((turn.row, turn.exponent), (1, 4));
//! assert_eq!(chieftables::accept(b"").unwrap_err().number(), 11);
//! ```
//!
//!   raw             the calls as they are, over slices
//!   Refusal         why a call refuses
//!   accept, measure, commutative, build, check, read_table, write_table     the calls
//!   Table           a table that passed, with its views

pub mod raw;
mod refusal;
mod table;

pub use refusal::Refusal;
pub use table::{Column, Level, Matrix, Representation, Table};

/// Words of one line of a table: level, rep, deg, gen, ref, col, row, exp.
pub const LINE: usize = 8;

/// Bytes of the names line of a table text, and of a line at most.
const NAMES: usize = 34;
const WIDEST: usize = 80;

/// Nothing, or why the presentation text is refused.
pub fn accept(text: &[u8]) -> Result<(), Refusal> {
    refusal::answer(raw::accept(text))
}

/// The words that a build of the text wants.
pub fn measure(text: &[u8]) -> Result<usize, Refusal> {
    refusal::counted(raw::measure(text))
}

/// Whether the group of the text is commutative. Nothing is built.
pub fn commutative(text: &[u8]) -> Result<bool, Refusal> {
    refusal::told(raw::commutative(text))
}

/// The table of the text.
pub fn build(text: &[u8]) -> Result<Table, Refusal> {
    let mut words = vec![0; measure(text)?];
    let lines = refusal::counted(raw::build(text, &mut words))?;
    words.truncate(LINE * lines);
    Ok(Table::indexed(words))
}

/// Nothing, or why the text is refused, or the words as a table of it, whoever made them.
pub fn check(text: &[u8], words: &[u32]) -> Result<(), Refusal> {
    refusal::answer(raw::check(text, words))
}

/// The words of a table text. What they say is not judged: [`Table::checked`] does that.
pub fn read_table(text: &[u8]) -> Result<Vec<u32>, Refusal> {
    let lines = text.iter().filter(|&&byte| byte == b'\n').count().saturating_sub(1);
    let mut words = vec![0; LINE * lines];
    refusal::counted(raw::read_table(text, &mut words))?;
    Ok(words)
}

/// The table text of words.
pub fn write_table(words: &[u32]) -> Result<Vec<u8>, Refusal> {
    let mut out = vec![0; NAMES + WIDEST * (words.len() / LINE)];
    let bytes = refusal::counted(raw::write_table(words, &mut out))?;
    out.truncate(bytes);
    Ok(out)
}
