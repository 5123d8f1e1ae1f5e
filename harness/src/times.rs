//! How long the calls take.
//!
//!   answers    the answer to each text
//!   times      the answer, and the time of a call in microseconds: of the text, and of reading it alone
//!   builds     the answer, the lines of the table, and the time of a call, beside that of a plain copy
//!   checks     the times of checking the table that is built, and one in other bases, beside those of building and of reading it,
//!              sampled by turns
//!   commutative    the answer and the yes or no, compared with the degrees of the built table, and the times of the call, of accepting
//!              and of building, sampled by turns
//!   tables     so many lines written as table text and read back: the bytes, and the median times
//!   sums       so many lines copied with a sum of two exponents each, made by a comparison and by arithmetic alone

use crate::naive;
use crate::random::Random;
use crate::tables::other_basis;
use chieftables::raw::{self, accept, build, check, read_table, write_table, Counted};
use std::hint::black_box;
use std::time::{Duration, Instant};

/// Samples of which the median is taken, and how long each lasts at least.
pub const SAMPLES: usize = 101;
const SAMPLE: Duration = Duration::from_millis(2);

/// How long `count` calls take.
fn calls<T>(call: &mut impl FnMut() -> T, count: u32) -> Duration {
    let start = Instant::now();
    for _ in 0..count {
        black_box(call());
    }
    start.elapsed()
}

/// The time of one of so many calls, in microseconds.
fn each(time: Duration, count: u32) -> f64 {
    time.as_secs_f64() * 1e6 / f64::from(count)
}

/// The least of the middle half of numbers, their median, and the greatest of the middle half.
fn quarters(numbers: impl Iterator<Item = f64>) -> [f64; 3] {
    let mut sorted: Vec<f64> = numbers.collect();
    sorted.sort_by(f64::total_cmp);
    [1, 2, 3].map(|k| sorted[k * sorted.len() / 4])
}

/// The median time of a call, in microseconds.
pub fn median<T>(mut call: impl FnMut() -> T) -> f64 {
    let mut count = 1;
    while calls(&mut call, count) < SAMPLE {
        count *= 2;
    }
    quarters((0..SAMPLES).map(|_| each(calls(&mut call, count), count)))[1]
}

/// The times of several things in microseconds, in each of so many turns. A turn does all of them, each as often as it is told, so
/// that a machine whose speed changes is as fast for one as for the next.
fn by_turns<const THINGS: usize>(mut turn: impl FnMut([u32; THINGS]) -> [Duration; THINGS]) -> Vec<[f64; THINGS]> {
    let mut counts = [1; THINGS];
    while let Some(short) = turn(counts).iter().position(|&time| time < SAMPLE) {
        counts[short] *= 2;
    }
    (0..SAMPLES)
        .map(|_| {
            let times = turn(counts);
            std::array::from_fn(|k| each(times[k], counts[k]))
        })
        .collect()
}

/// The text with its last exponent made 1, where no word may have that generator: it is read whole, and refused with 14
/// before the consistency test.
fn misused(text: &[u8]) -> Vec<u8> {
    let mut changed = text.to_vec();
    if let [.., exponent @ b'0', b'\n'] = changed.as_mut_slice() {
        *exponent = b'1';
    }
    changed
}

/// The median time of one call, in microseconds.
fn median_once(mut call: impl FnMut() -> Counted) -> f64 {
    quarters((0..SAMPLES).map(|_| each(calls(&mut call, 1), 1)))[1]
}

/// Writes so many lines of values of one to four digits, reads them back, and times both.
pub fn tables(lines: usize) {
    let words: Vec<u32> = (0..8 * lines as u64).map(|i| ((i * 2654435761) % 4096) as u32 >> (i % 7)).collect();
    let mut out = vec![0u8; 34 + 80 * lines];
    let written = write_table(&words, &mut out);
    let text = out[..written.count].to_vec();
    let mut back = vec![0u32; words.len()];
    let read = read_table(&text, &mut back);
    assert!(written.answer == 0 && read.answer == 0 && read.count == lines && back == words);
    let writing = median_once(|| write_table(black_box(&words), &mut out));
    let reading = median_once(|| read_table(black_box(&text), &mut back));
    println!("{lines} lines, {} bytes: read {reading:.1}, written {writing:.1}", text.len());
}

/// Words of a line, and those that the largest build wants.
pub const LINE: usize = 8;
pub const WORDS: usize = 3_669_792;

/// The sum modulo `m` of two numbers below it, by a comparison.
fn compared(a: u32, b: u32, m: u32) -> u32 {
    let sum = a + b;
    if sum < m {
        sum
    } else {
        sum - m
    }
}

/// The sum modulo `m` of two numbers below it, by arithmetic alone, as the library makes it.
fn carried(a: u32, b: u32, m: u32) -> u32 {
    let sum = a + b;
    let over = (sum + ((1 << 31) - m)) / (1 << 31);
    sum - m * over
}

/// Writes lines again from a copy of them. Each is made as a builder makes it from a line of the level below: `up` is added
/// to the row and `more` to the exponent, modulo `order`, and eight words are stored.
fn copied(add: impl Fn(u32, u32, u32) -> u32, lines: &[u32], [up, more, order]: [u32; 3], words: &mut [u32]) {
    for (from, to) in lines.chunks_exact(LINE).zip(words.chunks_exact_mut(LINE)) {
        let exponent = add(from[7], more, order);
        to.copy_from_slice(&[from[0], from[1], from[2], from[3], from[4], from[5], from[6] + up, exponent]);
    }
}

/// Writes lines again as they are.
pub fn copy(lines: &[u32], words: &mut [u32]) {
    copied(compared, lines, black_box([0, 0, u32::MAX]), words);
}

/// Copies so many lines of random words below 4,096, with half of that added to the exponents, and times both sums by turns.
pub fn sums(lines: usize) {
    let mut random = Random::new(1);
    let from: Vec<u32> = (0..LINE * lines).map(|_| random.below(4096) as u32).collect();
    let [mut one, mut other] = [0, 1].map(|_| vec![0u32; from.len()]);
    let turns = by_turns(|[compares, carries]| {
        let added = black_box([0, 2048, 4096]);
        [
            calls(&mut || copied(compared, black_box(&from), added, &mut one), compares),
            calls(&mut || copied(carried, black_box(&from), added, &mut other), carries),
        ]
    });
    assert!(one == other);
    let time = |k: usize| quarters(turns.iter().map(|turn| turn[k] * 1e3 / lines as f64))[1];
    let [low, middle, high] = quarters(turns.iter().map(|turn| turn[1] / turn[0]));
    println!("{lines} lines: compared {:.2} ns a line, carried {:.2}, {middle:.2} times ({low:.2} to {high:.2})", time(0), time(1));
}

/// Builds the table of a text, and times that and the copy.
pub fn builds(text: &[u8], path: &str) {
    let mut words = vec![7u32; WORDS];
    let Counted { answer, count } = build(text, &mut words);
    let size = LINE * count;
    assert!(words[size..].iter().all(|&word| word == 7));
    let building = median(|| build(black_box(text), &mut words));
    print!("{answer:2} {count:6} lines: built {building:.2} us");
    if size > 0 {
        let lines = words[..size].to_vec();
        let copying = median(|| copy(black_box(&lines), &mut words));
        assert!(words[..size] == lines);
        let word = |time: f64| time * 1e3 / size as f64;
        print!(", {:.2} ns a word; the same lines copied by a loop in Rust", word(building));
        print!(" {copying:.2} us, {:.2} ns a word", word(copying));
    }
    println!("; {path}");
}

/// The sum of words: what reading each once costs at least.
fn sum(words: &[u32]) -> u32 {
    words.iter().fold(0, |sum, &word| sum.wrapping_add(word))
}

/// A table of the same group in other bases and another order of representations; none where the text is not accepted.
fn foreign(text: &[u8]) -> Vec<u32> {
    let Ok(relations) = naive::accept(text) else { return Vec::new() };
    other_basis(&mut Random::new(1), &naive::steps::levels(&relations), relations.order() as u32)
}

/// Checks the table that is built of a text, and the same in other bases; times both, the build, and a plain read, by turns. The
/// quotient is the median over the turns of check to build, with the range of its middle half.
pub fn checks(text: &[u8], path: &str) {
    let mut words = vec![7u32; WORDS];
    let size = LINE * build(text, &mut words).count;
    let table = foreign(text);
    let answers = [check(text, &words[..size]), check(text, &table)];
    let turns = by_turns(|counts: [u32; 4]| {
        [
            calls(&mut || build(black_box(text), &mut words), counts[0]),
            calls(&mut || sum(black_box(&words[..size])), counts[1]),
            calls(&mut || check(black_box(text), black_box(&words[..size])), counts[2]),
            calls(&mut || check(black_box(text), black_box(&table)), counts[3]),
        ]
    });
    let time = |k: usize| quarters(turns.iter().map(|turn| turn[k]))[1];
    print!("{size:7} words: built {:.2} us, read {:.2} us", time(0), time(1));
    for (basis, k, answer) in [("checked", 2, answers[0]), ("in other bases", 3, answers[1])] {
        let [low, middle, high] = quarters(turns.iter().map(|turn| turn[k] / turn[0]));
        print!("; {basis} {:.2} us, {middle:.2} times ({low:.2} to {high:.2}), answer {answer}", time(k));
    }
    println!("; {path}");
}

/// Whether all degrees of the last level of a table are 1.
pub fn ones(table: &[u32]) -> bool {
    let last = table.chunks_exact(LINE).last().map_or(0, |line| line[0]);
    table.chunks_exact(LINE).all(|line| line[0] != last || line[2] == 1)
}

/// Asks whether the group of a text is commutative, compares with the built table, and times both and accepting by turns.
pub fn commutative(text: &[u8], path: &str) {
    let mut words = vec![7u32; WORDS];
    let Counted { answer, count } = build(text, &mut words);
    let told = raw::commutative(text);
    assert!(told == raw::Verdict { answer, yes: u32::from(answer == 0 && ones(&words[..LINE * count])) }, "{path}");
    let turns = by_turns(|counts: [u32; 3]| {
        [
            calls(&mut || accept(black_box(text)), counts[0]),
            calls(&mut || raw::commutative(black_box(text)), counts[1]),
            calls(&mut || build(black_box(text), &mut words), counts[2]),
        ]
    });
    let time = |k: usize| quarters(turns.iter().map(|turn| turn[k]))[1];
    let quotient = |k: usize| quarters(turns.iter().map(|turn| turn[1] / turn[k])).map(|part| format!("{part:.3}"));
    let [[low, middle, high], [_, built, _]] = [quotient(0), quotient(2)];
    print!("{answer:2} yes {}: accepted {:.2} us, told {:.2} us, {middle} times ({low} to {high})", told.yes, time(0), time(1));
    println!("; built {:.2} us, {built} of it; {path}", time(2));
}

pub fn answers(text: &[u8], path: &str) {
    println!("{} {path}", accept(text));
}

pub fn times(text: &[u8], path: &str) {
    let read = misused(text);
    let reading = if accept(&read) == 14 { median(|| accept(black_box(&read))) } else { f64::NAN };
    println!("{:2} {:10.2} {reading:10.2} {path}", accept(text), median(|| accept(black_box(text))));
}
