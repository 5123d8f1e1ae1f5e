//! All calls on a text, and how their cost grows with the order. What is printed are tables in Markdown.
//!
//! A time is the smallest of at least eleven samples, of which each is as many calls as last a millisecond; it is divided by
//! the words of the table. The copy is that of `builds`.

use crate::groups::{cyclic, grown};
use crate::naive::Relations;
use crate::random::Random;
use crate::times::{copy, LINE};
use chieftables::raw::{accept, build, check, measure, read_table, write_table};
use std::hint::black_box;
use std::time::{Duration, Instant};

const SAMPLE: Duration = Duration::from_millis(1);
const SAMPLES: usize = 11;
const ALL: Duration = Duration::from_millis(300);

/// The smallest time of a call, in nanoseconds.
fn least<T>(mut call: impl FnMut() -> T) -> f64 {
    let mut lasts = |count: u32| {
        let start = Instant::now();
        for _ in 0..count {
            black_box(call());
        }
        start.elapsed()
    };
    let mut count = 1;
    while lasts(count) < SAMPLE {
        count *= 2;
    }
    let start = Instant::now();
    let mut times = Vec::new();
    while times.len() < SAMPLES || start.elapsed() < ALL {
        times.push(lasts(count).as_secs_f64() * 1e9 / f64::from(count));
    }
    times.into_iter().fold(f64::INFINITY, f64::min)
}

/// The words of a text's table, and the time of each call in nanoseconds.
struct Times {
    words: usize,
    accept: f64,
    measure: f64,
    build: f64,
    check: f64,
    write: f64,
    read: f64,
    copy: f64,
}

fn times(text: &[u8]) -> Option<Times> {
    let wants = measure(text);
    let mut buffer = vec![0u32; wants.count];
    let lines = build(text, &mut buffer);
    if wants.answer != 0 || lines.answer != 0 {
        return None;
    }
    let words = buffer[..LINE * lines.count].to_vec();
    let mut out = vec![0u8; 34 + 80 * lines.count];
    let bytes = write_table(&words, &mut out).count;
    let written = out[..bytes].to_vec();
    Some(Times {
        words: words.len(),
        accept: least(|| accept(black_box(text))),
        measure: least(|| measure(black_box(text))),
        build: least(|| build(black_box(text), &mut buffer)),
        check: least(|| check(black_box(text), black_box(&words))),
        write: least(|| write_table(black_box(&words), &mut out)),
        read: least(|| read_table(black_box(&written), &mut buffer)),
        copy: least(|| copy(black_box(&words), &mut buffer)),
    })
}

/// A number with commas.
fn commas(number: usize) -> String {
    let digits = number.to_string();
    let mut out = String::new();
    for (place, digit) in digits.chars().enumerate() {
        if place > 0 && (digits.len() - place) % 3 == 0 {
            out.push(',');
        }
        out.push(digit);
    }
    out
}

/// A line of a table: what is timed, its words, and nanoseconds a word.
fn line(name: &str, text: &[u8]) {
    match times(text) {
        None => println!("| {name} | refused with {} |", accept(text)),
        Some(t) => {
            let word = |time: f64| format!("{:.2}", time / t.words as f64);
            let cells = [t.accept, t.measure, t.build, t.check, t.write, t.read, t.copy].map(word);
            println!("| {name} | {} | {} | {:.1} |", commas(t.words), cells.join(" | "), t.check / t.build);
        }
    }
}

const HEAD: &str = "| words | accept | measure | build | check | write_table | read_table | a copy | check to build |";
const RULE: &str = "|---|---|---|---|---|---|---|---|---|---|";

/// All calls on each text.
pub fn texts(paths: &[String]) {
    println!("| text {HEAD}\n{RULE}");
    for path in paths {
        let name = path.rsplit('/').next().unwrap_or(path);
        line(&format!("`{name}`"), &std::fs::read(path).unwrap_or_default());
    }
}

/// A group of order 2^k in dense words, always the same: of sixteen taken at random the one with the fewest lines.
fn dense(k: usize) -> Relations {
    let lines = |relations: &Relations| build(&relations.text(), &mut vec![0; relations.wants()]).count;
    let groups = (0..16).map(|seed| grown(&mut Random::new(seed), &vec![2; k]));
    groups.min_by_key(lines).expect("there are sixteen")
}

/// All calls on groups of order 2^k, from 64 to 16,384: the cyclic ones, and ones of dense words.
pub fn growth() {
    for (name, group) in [("cyclic", cyclic as fn(usize) -> _), ("dense", dense)] {
        println!("\n| {name}, order {HEAD}\n{RULE}");
        for k in 6..=14 {
            line(&commas(1 << k), &group(k).text());
        }
    }
}
