//! The library compared with the naive code, for as long as asked: first all presentations of small shape, with every table of
//! theirs; then rounds of groups taken at random, until the time is over.

use crate::comparison::{Comparison, PRESENTATIONS, TEXTS};
use crate::groups::{random_group, random_words, shapes};
use crate::naive::{self, steps, text, Relations};
use crate::tables::other_basis;
use std::time::{Duration, Instant};

/// Up to this order the naive check runs, up to this one the naive build at every text, and up to this one tables in other
/// bases are checked, which pass.
const JUDGED: usize = 128;
const BUILT: usize = 256;
const TURNED: usize = 1024;

impl Comparison {
    /// Runs for so long; tells what was compared.
    pub fn run(&mut self, seconds: u64) {
        println!("seed {}", self.seed);
        let end = self.start + Duration::from_secs(seconds);
        for n in 1..=3 {
            let mut all = Vec::new();
            shapes(n, 27, &mut |relations| all.push(relations.clone()));
            for relations in &all {
                self.presentation(relations, true);
                if Instant::now() > end {
                    return self.total("before every small shape was tried");
                }
            }
            println!("all {} presentations of {n} generators and order at most 27", all.len());
        }
        while Instant::now() < end {
            self.round();
        }
        self.total("");
    }

    /// So many rounds with small groups.
    pub fn rounds(&mut self, count: usize) {
        println!("seed {}", self.seed);
        for _ in 0..count {
            let bound = 2 + self.random.below(30);
            let relations = random_group(&mut self.random, bound);
            self.presentation(&relations, true);
            self.texts(&relations.text(), 8);
        }
        self.total("");
    }

    // ---- Presentations

    /// A presentation, and if it is accepted its table; `deep` says whether tables in other bases and damaged ones are tried.
    fn presentation(&mut self, relations: &Relations, deep: bool) {
        let text = relations.text();
        let naive = naive::accept(&text);
        self.accepted(PRESENTATIONS, &text, &naive);
        if let Ok(said) = naive {
            assert!(said == *relations);
            let levels = steps::levels(relations);
            let table = steps::table(relations);
            self.built(PRESENTATIONS, &text, relations, Some(&table));
            self.table(&text, relations, &table);
            if deep && relations.order() <= JUDGED {
                for _ in 0..4 {
                    let other = other_basis(&mut self.random, &levels, relations.order() as u32);
                    self.judged(&text, relations, &other, Some(0));
                    self.random_damages(&text, relations, &other, 6);
                }
                self.random_damages(&text, relations, &table, 12);
            } else if deep && relations.order() <= TURNED {
                let other = other_basis(&mut self.random, &levels, relations.order() as u32);
                self.checked(&text, &other, 0);
            }
        }
        self.tell();
    }

    // ---- Texts

    /// Presentation texts with bytes or values changed.
    fn texts(&mut self, text: &[u8], count: usize) {
        for _ in 0..count {
            let changed = self.changed(text);
            self.changed_text(&changed);
        }
    }

    fn changed_text(&mut self, text: &[u8]) {
        let naive = naive::accept(text);
        self.accepted(TEXTS, text, &naive);
        if let Ok(relations) = &naive {
            if relations.order() <= BUILT {
                let table = steps::table(relations);
                self.built(TEXTS, text, relations, Some(&table));
            } else {
                self.built(TEXTS, text, relations, None);
            }
        }
    }

    /// Every byte of a text replaced by every other, left out, doubled; every beginning of the text.
    fn every_byte(&mut self, text: &[u8]) {
        for at in 0..text.len() {
            for byte in 0..=255 {
                let mut changed = text.to_vec();
                changed[at] = byte;
                self.changed_text(&changed);
            }
            let mut less = text.to_vec();
            less.remove(at);
            self.changed_text(&less);
            let mut twice = text.to_vec();
            twice.insert(at, text[at]);
            self.changed_text(&twice);
            self.changed_text(&text[..at]);
            self.tell();
        }
    }

    /// A text with one thing changed: a byte, a value, a line.
    fn changed(&mut self, text: &[u8]) -> Vec<u8> {
        let random = &mut self.random;
        let mut changed = text.to_vec();
        let at = random.below(text.len());
        match random.below(8) {
            0 => changed[at] = random.below(256) as u8,
            1 => changed.insert(at, *random.pick(b" \n0123456789eijp\t\r")),
            2 => drop(changed.remove(at)),
            3 => changed.truncate(at),
            4 => {
                let lines: Vec<&[u8]> = text.split_inclusive(|&byte| byte == b'\n').collect();
                let (a, b) = (random.below(lines.len()), random.below(lines.len()));
                let mut lines = lines.clone();
                lines.swap(a, b);
                changed = lines.concat();
            }
            5 => changed[at] = *random.pick(b" \n0123456789"),
            _ => {
                // a value in place of a value
                let starts = |k: &usize| text[*k].is_ascii_digit() && !text[..*k].last().is_some_and(u8::is_ascii_digit);
                let values: Vec<usize> = (0..text.len()).filter(starts).collect();
                if values.is_empty() {
                    return changed;
                }
                let start = *random.pick(&values);
                let end = start + text[start..].iter().take_while(|byte| byte.is_ascii_digit()).count();
                let value = *random.pick(&[0usize, 1, 2, 3, 4, 5, 7, 9, 11, 13, 61, 4093, 4099, 16381, 16411, 999_999_999, 1_000_000_000]);
                changed.splice(start..end, value.to_string().into_bytes());
            }
        }
        changed
    }

    // ---- Tables

    /// A built table: it passes, and goes through its text.
    fn table(&mut self, text: &[u8], relations: &Relations, table: &[u32]) {
        if relations.order() <= JUDGED {
            self.judged(text, relations, table, Some(0));
        } else {
            self.checked(text, table, 0);
        }
        self.written(table);
        let written = text::write_table(table, usize::MAX).expect("a table can be written");
        self.read(&written, table.len());
        self.read(&written, table.len() - 1);
        if table.len() < 4000 {
            for _ in 0..6 {
                let changed = self.changed(&written);
                let more = self.random.below(16);
                self.read(&changed, table.len() + more);
            }
        }
    }

    /// Words that are no table: any values, any number of them.
    fn any_words(&mut self) {
        let random = &mut self.random;
        let count = if random.once_in(3) { random.below(40) } else { 8 * random.below(5) };
        let large = if random.once_in(4) { u32::MAX as usize + 1 } else { 1_000_000_000 };
        let words: Vec<u32> = (0..count).map(|_| (random.below(large) as u64 >> random.below(32)) as u32).collect();
        self.written(&words);
        if let Ok(written) = text::write_table(&words, usize::MAX) {
            for _ in 0..4 {
                let changed = self.changed(&written);
                let have = (count + self.random.below(16)).saturating_sub(4);
                self.read(&changed, have);
            }
        }
    }

    // ---- Rounds

    fn round(&mut self) {
        let bound = match self.random.below(40) {
            0 if self.random.once_in(32) => 16384,
            0 => 4096,
            1..=2 => 512,
            3..=5 => 128,
            6..=12 => 64,
            _ => 30,
        };
        let relations = random_group(&mut self.random, bound);
        let text = relations.text();
        self.presentation(&relations, true);
        let order = relations.order();
        self.texts(&text, if order <= 64 { 400 } else { 40 });
        if order <= 12 && self.random.once_in(8) {
            self.every_byte(&text);
            let table = steps::table(&relations);
            self.every_word(&text, &relations, &table);
        }
        for _ in 0..20 {
            let times = 1 + self.random.below(4);
            let words = random_words(&mut self.random, &relations.primes, times);
            if order <= BUILT {
                self.presentation(&words, order <= 16);
            }
        }
        for _ in 0..40 {
            self.any_words();
        }
        self.tell();
    }
}
