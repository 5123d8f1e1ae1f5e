//! The judgement of any words as a table: lines by key, relations as products of square matrices, separation by walking every
//! normal form of every level.

use super::dense::{value, Dense};
use super::Relations;
use std::collections::BTreeMap;

/// A representation as the lines have it: a matrix and the references for each generator.
struct Rep {
    matrices: Vec<Dense>,
    references: Vec<Vec<usize>>,
}

impl Rep {
    fn degree(&self) -> usize {
        self.matrices[0].d
    }
}

/// Whether a level passes one of 22 to 26.
type Test = fn(&Relations, &[Vec<Rep>], usize) -> bool;

/// The first of 21 to 26 that applies, or 0.
pub fn judge(relations: &Relations, words: &[u32]) -> u32 {
    let Some(levels) = form(relations, words) else { return 21 };
    let tests: [Test; 5] = [related, restricted, intertwined, separated, squared];
    for (number, test) in (22..).zip(tests) {
        if !(1..=relations.n()).all(|i| test(relations, &levels, i)) {
            return number;
        }
    }
    0
}

/// The levels, from level 0 on, if the lines are those of a table.
fn form(relations: &Relations, words: &[u32]) -> Option<Vec<Vec<Rep>>> {
    let n = relations.n();
    if words.len() % 8 != 0 {
        return None;
    }
    let lines: Vec<&[u32]> = words.chunks(8).collect();
    let keys: Vec<[u32; 4]> = lines.iter().map(|l| [l[0], l[1], l[3], l[5]]).collect();
    if !keys.windows(2).all(|pair| pair[0] < pair[1]) {
        return None;
    }
    let mut found: BTreeMap<(usize, usize), Vec<&[u32]>> = BTreeMap::new();
    for line in lines {
        found.entry((line[0] as usize, line[1] as usize)).or_default().push(line);
    }
    let one = Rep { matrices: vec![Dense::identity(1)], references: Vec::new() };
    let mut levels = vec![vec![one]];
    levels.resize_with(n + 1, Vec::new);
    for ((i, number), lines) in found {
        if i < 1 || n < i || number != levels[i].len() {
            return None;
        }
        levels[i].push(rep(relations, i, &lines)?);
    }
    let complete = levels.iter().all(|level| !level.is_empty());
    (complete && (1..=n).all(|i| levels[i].iter().all(|d| referred(&levels, i, d)))).then_some(levels)
}

/// The representation that lines are, in the order of their keys.
fn rep(relations: &Relations, i: usize, lines: &[&[u32]]) -> Option<Rep> {
    let (n, m) = (relations.n(), relations.order() as u32);
    let degree = lines[0][2] as usize;
    let small = (1..=128).contains(&degree) && degree * degree <= relations.orders()[i];
    if !small || lines.len() != n * degree || lines.iter().any(|l| l[2] as usize != degree) {
        return None;
    }
    let mut matrices = vec![Dense::zero(degree); n];
    let mut references = vec![vec![0; degree]; n];
    for (place, line) in lines.iter().enumerate() {
        let (k, column, row) = (place / degree, place % degree, line[6] as usize);
        let there = line[3] as usize == k + 1 && line[5] as usize == column && row < degree && line[7] < m;
        if !there || (0..degree).any(|c| matrices[k].entries[c * degree + row].is_some()) {
            return None;
        }
        matrices[k].put(row, column, line[7]);
        references[k][column] = line[4] as usize;
    }
    Some(Rep { matrices, references })
}

/// Whether the references of a representation of level i name what is listed: whole blocks below, one target on the level.
fn referred(levels: &[Vec<Rep>], i: usize, d: &Rep) -> bool {
    let blocks = blocks(levels, i, d).is_some();
    let same = (1..i).all(|k| d.references[k] == d.references[0]);
    let led = d.references[i..].iter().all(|r| r[0] < levels[i].len() && r.iter().all(|t| *t == r[0]));
    blocks && same && led
}

/// Where the blocks begin, and what they name.
fn blocks(levels: &[Vec<Rep>], i: usize, d: &Rep) -> Option<Vec<(usize, usize)>> {
    let mut blocks = Vec::new();
    let mut start = 0;
    while start < d.degree() {
        let name = d.references[0][start];
        let end = start + levels[i - 1].get(name)?.degree();
        if end > d.degree() || d.references[0][start..end].iter().any(|&r| r != name) {
            return None;
        }
        blocks.push((start, name));
        start = end;
    }
    Some(blocks)
}

fn related(relations: &Relations, levels: &[Vec<Rep>], i: usize) -> bool {
    let m = relations.order() as u32;
    levels[i].iter().all(|d| {
        let g = &d.matrices;
        (0..i).all(|j| {
            let words = &relations.words[j];
            g[j].power(relations.primes[j], m) == value(&g[..i], &words[j][..i], m)
                && (0..j).all(|k| g[k].times(&g[j], m) == g[j].times(&g[k], m).times(&value(&g[..i], &words[k][..i], m), m))
        })
    })
}

fn restricted(_: &Relations, levels: &[Vec<Rep>], i: usize) -> bool {
    levels[i].iter().all(|d| {
        let blocks = blocks(levels, i, d).expect("the form was tested");
        (0..i - 1).all(|k| {
            let mut sum = Dense::zero(d.degree());
            for &(start, name) in &blocks {
                sum.place(start, start, &levels[i - 1][name].matrices[k]);
            }
            sum == d.matrices[k]
        })
    })
}

fn intertwined(relations: &Relations, levels: &[Vec<Rep>], i: usize) -> bool {
    let m = relations.order() as u32;
    levels[i].iter().all(|d| {
        (i..relations.n()).all(|j| {
            let (x, to) = (&d.matrices[j], &levels[i][d.references[j][0]]);
            to.degree() == d.degree()
                && (0..i).all(|k| {
                    let w = value(&d.matrices[..i], &relations.words[j][k][..i], m);
                    x.times(&d.matrices[k], m).times(&w, m) == to.matrices[k].times(x, m)
                })
        })
    })
}

fn separated(relations: &Relations, levels: &[Vec<Rep>], i: usize) -> bool {
    let (m, orders) = (relations.order() as u32, relations.orders());
    // for each basis index of the level the exponent of each normal form that fixes it
    let mut indices: Vec<Vec<Option<u32>>> = Vec::new();
    for d in &levels[i] {
        let mut forms = vec![Dense::identity(d.degree())];
        for x in 1..orders[i] {
            let top = (0..i).rfind(|&k| x >= orders[k]).expect("x is not 0");
            forms.push(d.matrices[top].times(&forms[x - orders[top]], m));
        }
        let reached = |k: usize| forms.iter().any(|form| form.entry(0).0 == k);
        if !(0..d.degree()).all(reached) {
            return false;
        }
        let fixed = |form: &Dense, k: usize| form.entries[k * d.degree() + k];
        indices.extend((0..d.degree()).map(|k| forms.iter().map(|form| fixed(form, k)).collect::<Vec<_>>()));
    }
    let differ = |a: &Vec<Option<u32>>, b: &Vec<Option<u32>>| a.iter().zip(b).any(|(x, y)| x.is_some() && y.is_some() && x != y);
    (0..indices.len()).all(|a| (0..a).all(|b| differ(&indices[a], &indices[b])))
}

fn squared(relations: &Relations, levels: &[Vec<Rep>], i: usize) -> bool {
    levels[i].iter().map(|d| d.degree() * d.degree()).sum::<usize>() == relations.orders()[i]
}
