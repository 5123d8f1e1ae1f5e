//! The library compared with the naive code on the presentation texts of files: the text, its table, the same in other bases, and
//! damaged tables. No order is left out, so a file takes as long as the naive check of its tables does.
//!
//! Each of these tables is damaged in two ways: every word is replaced by others, and one thing is changed that is taken at random: a
//! word, a line, a matrix, a representation. The seed is fixed, so each run is the same.

use crate::comparison::{Comparison, PRESENTATIONS};
use crate::naive::{self, steps, Relations};
use crate::tables::other_basis;

const SEED: u64 = 1;

/// Tables in other bases, and how often something taken at random is changed in each table.
const BASES: usize = 3;
const CHANGES: usize = 1000;

/// Compares the text of each file, and prints a line about it.
pub fn files(paths: &[String]) {
    for path in paths {
        let text = std::fs::read(path).unwrap_or_else(|error| {
            println!("{path}: {error}");
            std::process::exit(1);
        });
        let naive = naive::accept(&text);
        let mut right = Comparison::new(SEED);
        right.accepted(PRESENTATIONS, &text, &naive);
        match naive {
            Ok(relations) => println!("{path}: {}", tables(&mut right, &text, &relations)),
            Err(answer) => println!("{path}: refused with {answer}"),
        }
    }
}

/// Compares the tables of an accepted text, and says what was compared.
fn tables(right: &mut Comparison, text: &[u8], relations: &Relations) -> String {
    let (order, levels) = (relations.order(), steps::levels(relations));
    let mut tables = vec![steps::table(relations)];
    right.built(PRESENTATIONS, text, relations, Some(&tables[0]));
    tables.extend((0..BASES).map(|_| other_basis(&mut right.random, &levels, order as u32)));
    let mut damaged = Comparison::new(SEED);
    for table in &tables {
        right.judged(text, relations, table, Some(0));
        damaged.every_word(text, relations, table);
        damaged.random_damages(text, relations, table, CHANGES);
    }
    let (lines, count, answers) = (tables[0].len() / 8, damaged.count(), damaged.answered());
    format!("order {order}, {lines} lines, {} tables that pass, {count} damaged tables compared, answers {answers}", tables.len())
}
