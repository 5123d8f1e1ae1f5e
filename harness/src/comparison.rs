//! What is compared of one input, and the count of all that were.
//!
//! What is compared is all that a call leaves: the answer, the count and every word or byte of its buffer, with canaries on both
//! sides of it. A difference is printed with its input and ends the run.
//!
//! An input is one call's input. `presentations` are texts for accept, measure, commutative and build; `texts` are such texts with bytes or
//! values changed; `tables` are tables for the check: as built, in other bases, and with one thing changed; `table texts` are
//! words and texts for write_table and read_table, with bytes changed, and buffers that are too short.
//!
//!   accepted, built             a presentation text
//!   checked, judged             a table, with a known answer and with that of the naive check
//!   every_word, random_damages  a table with one thing changed
//!   read, written               a table text, and the words of one

use crate::naive::{judge::judge, text, Relations};
use crate::random::Random;
use crate::tables::{damaged, instead};
use crate::times::ones;
use chieftables::raw;
use std::collections::{BTreeMap, BTreeSet};
use std::time::{Duration, Instant};

const FAMILIES: [&str; 4] = ["presentations", "texts", "tables", "table texts"];
pub const PRESENTATIONS: usize = 0;
pub const TEXTS: usize = 1;
const TABLES: usize = 2;
const TABLE_TEXTS: usize = 3;

/// Words or bytes on each side of a buffer, and what stands there and in the buffer before a call.
const SIDE: usize = 16;
const CANARY: u32 = 0xA5A5_5A5A;

pub struct Comparison {
    pub random: Random,
    pub seed: u64,
    pub start: Instant,
    told: Instant,
    inputs: [u64; FAMILIES.len()],
    answers: BTreeMap<u32, u64>,
}

/// What a call is to answer, count and leave: `left` from the first word on.
struct Expected<'a, T> {
    answer: u32,
    count: usize,
    left: &'a [T],
}

impl Comparison {
    pub fn new(seed: u64) -> Comparison {
        let now = Instant::now();
        Comparison { random: Random::new(seed), seed, start: now, told: now, inputs: [0; FAMILIES.len()], answers: BTreeMap::new() }
    }

    /// Tells what was compared.
    pub fn total(&self, remark: &str) {
        let parts: Vec<String> = FAMILIES.iter().zip(self.inputs).map(|(name, count)| format!("{count} {name}")).collect();
        println!("answers: {}", self.answered());
        println!(
            "{} inputs compared, no difference: {}; seed {}, {} s {remark}",
            self.count(),
            parts.join(", "),
            self.seed,
            self.start.elapsed().as_secs()
        );
    }

    /// How many inputs were compared.
    pub fn count(&self) -> u64 {
        self.inputs.iter().sum()
    }

    /// How often each answer came.
    pub fn answered(&self) -> String {
        let answers: Vec<String> = self.answers.iter().map(|(answer, count)| format!("{answer}: {count}")).collect();
        answers.join(", ")
    }

    /// A line a second.
    pub fn tell(&mut self) {
        if self.told.elapsed() > Duration::from_secs(1) {
            self.told = Instant::now();
            println!("{:5} s  {:10} inputs, no difference", self.start.elapsed().as_secs(), self.count());
        }
    }

    /// Counts an input whose answer was as expected, or ends the run.
    fn same(&mut self, family: usize, call: &str, good: bool, answer: u32, shown: &dyn Fn() -> String) {
        if !good {
            println!("DIFFERENCE in {call}, seed {}, after {} inputs\n{}", self.seed, self.count(), shown());
            std::process::exit(1);
        }
        self.inputs[family] += 1;
        *self.answers.entry(answer).or_default() += 1;
    }

    // ---- Presentations

    /// Accept and measure, and if the text is refused commutative, check and build.
    pub fn accepted(&mut self, family: usize, text: &[u8], naive: &Result<Relations, u32>) {
        let answer = *naive.as_ref().err().unwrap_or(&0);
        let wants = naive.as_ref().map_or(0, Relations::wants);
        let shown = || String::from_utf8_lossy(text).into_owned();
        self.same(family, "accept", raw::accept(text) == answer, answer, &shown);
        self.same(family, "measure", raw::measure(text) == raw::Counted { answer, count: wants }, answer, &shown);
        if answer != 0 {
            self.same(family, "commutative", raw::commutative(text) == raw::Verdict { answer, yes: 0 }, answer, &shown);
            self.same(family, "check", raw::check(text, &[1; 8]) == answer, answer, &shown);
            let expected = Expected { answer, count: 0, left: &[] };
            self.fills(family, "build", 24, &expected, &|words| raw::build(text, words), &shown);
        }
    }

    /// The build of an accepted text, with words enough and more, and with one or more too few; beside its table commutative.
    pub fn built(&mut self, family: usize, text: &[u8], relations: &Relations, table: Option<&[u32]>) {
        let wants = relations.wants();
        let shown = || String::from_utf8_lossy(text).into_owned();
        let short = Expected { answer: 16, count: 0, left: &[] };
        let few = self.random.below(wants);
        self.fills(family, "build", wants - 1, &short, &|words| raw::build(text, words), &shown);
        self.fills(family, "build", few, &short, &|words| raw::build(text, words), &shown);
        if let Some(table) = table {
            let told = raw::Verdict { answer: 0, yes: u32::from(ones(table)) };
            self.same(family, "commutative", raw::commutative(text) == told, 0, &shown);
            let done = Expected { answer: 0, count: table.len() / 8, left: table };
            let more = self.random.below(40);
            self.fills(family, "build", wants + more, &done, &|words| raw::build(text, words), &shown);
        }
    }

    /// A call that fills words: what it leaves in `have` of them, with canaries on both sides.
    fn fills(
        &mut self,
        family: usize,
        call: &str,
        have: usize,
        expected: &Expected<u32>,
        run: &dyn Fn(&mut [u32]) -> raw::Counted,
        shown: &dyn Fn() -> String,
    ) {
        let mut words = vec![CANARY; have + 2 * SIDE];
        let counted = run(&mut words[SIDE..SIDE + have]);
        let left = expected.left.len();
        let good = counted == raw::Counted { answer: expected.answer, count: expected.count }
            && words[..SIDE].iter().all(|&word| word == CANARY)
            && words[SIDE..SIDE + left] == *expected.left
            && words[SIDE + left..].iter().all(|&word| word == CANARY);
        self.same(family, call, good, expected.answer, shown);
    }

    // ---- Tables

    /// The check of a table that is to get this answer.
    pub fn checked(&mut self, text: &[u8], words: &[u32], answer: u32) {
        self.compared(text, words, answer, raw::check(text, words) == answer);
    }

    /// The check of a table, compared with the naive one and with the answer where it is known.
    pub fn judged(&mut self, text: &[u8], relations: &Relations, words: &[u32], known: Option<u32>) {
        let answer = judge(relations, words);
        let good = known.is_none_or(|known| known == answer) && raw::check(text, words) == answer;
        self.compared(text, words, answer, good);
    }

    fn compared(&mut self, text: &[u8], words: &[u32], answer: u32, good: bool) {
        let shown = || {
            let table = text::write_table(words, usize::MAX).unwrap_or_else(|_| format!("{words:?}").into_bytes());
            format!("{}{}", String::from_utf8_lossy(text), String::from_utf8_lossy(&table))
        };
        self.same(TABLES, "check", good, answer, &shown);
    }

    /// Every word of a table replaced by others.
    pub fn every_word(&mut self, text: &[u8], relations: &Relations, words: &[u32]) {
        for (at, &word) in words.iter().enumerate() {
            let mut others = BTreeSet::from(instead(word, relations.order() as u32));
            others.remove(&word);
            for other in others {
                let mut changed = words.to_vec();
                changed[at] = other;
                self.judged(text, relations, &changed, None);
            }
        }
    }

    /// So many tables with one thing changed, taken at random.
    pub fn random_damages(&mut self, text: &[u8], relations: &Relations, words: &[u32], count: usize) {
        for _ in 0..count {
            let changed = damaged(&mut self.random, words, relations.order() as u32);
            self.judged(text, relations, &changed, None);
        }
    }

    // ---- Table texts

    pub fn read(&mut self, table_text: &[u8], have: usize) {
        let naive = text::read_table(table_text, have);
        let shown = || format!("{have} words for\n{}", String::from_utf8_lossy(table_text));
        let expected = match &naive {
            Ok(words) => Expected { answer: 0, count: words.len() / 8, left: words },
            Err(answer) => Expected { answer: *answer, count: 0, left: &[] as &[u32] },
        };
        self.fills(TABLE_TEXTS, "read_table", have, &expected, &|words| raw::read_table(table_text, words), &shown);
    }

    /// Words written with room enough, with more, and with a byte too few.
    pub fn written(&mut self, words: &[u32]) {
        let full = text::write_table(words, usize::MAX).map_or(50, |text| text.len());
        let more = self.random.below(20);
        for room in [full, full + more, full - 1] {
            let naive = text::write_table(words, room);
            let mut out = vec![0xA5u8; room + 2 * SIDE];
            let counted = raw::write_table(words, &mut out[SIDE..SIDE + room]);
            let (answer, left) = match &naive {
                Ok(text) => (0, text.as_slice()),
                Err(answer) => (*answer, &[] as &[u8]),
            };
            let good = counted == raw::Counted { answer, count: left.len() }
                && out[..SIDE].iter().all(|&byte| byte == 0xA5)
                && out[SIDE..SIDE + left.len()] == *left
                && out[SIDE + left.len()..].iter().all(|&byte| byte == 0xA5);
            self.same(TABLE_TEXTS, "write_table", good, answer, &|| format!("{room} bytes for {words:?}"));
        }
    }
}
