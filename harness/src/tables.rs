//! Tables to check.
//!
//!   other_basis       a right table made into another right one: basis vectors scaled, blocks exchanged, representations renumbered
//!   damaged           a table with one thing changed: a word, a line, a matrix, a representation

use crate::naive::dense::Dense;
use crate::naive::steps::Rep;
use crate::random::Random;

/// A table of the same group in other bases. On each level every representation gets its blocks in another sequence and
/// each block a scalar, on top of what was done to the blocks below; intertwiners get a scalar of their own.
pub fn other_basis(random: &mut Random, levels: &[Vec<Rep>], m: u32) -> Vec<u32> {
    let mut words = Vec::new();
    let mut below = Change { places: vec![0], sequences: vec![vec![0]], matrices: vec![Dense::identity(1)] };
    for (i, level) in levels.iter().enumerate().skip(1) {
        let change = Change::of(random, level, &below, m);
        let mut numbers: Vec<usize> = (0..level.len()).collect();
        numbers.sort_by_key(|&number| change.places[number]);
        for number in numbers {
            change.lines(random, i, level, number, &below, m, &mut words);
        }
        below = change;
    }
    words
}

/// What is changed on a level: for each representation the number that it gets, the old numbers of its blocks in their
/// new sequence, and the change of basis.
struct Change {
    places: Vec<usize>,
    sequences: Vec<Vec<usize>>,
    matrices: Vec<Dense>,
}

impl Change {
    fn of(random: &mut Random, level: &[Rep], below: &Change, m: u32) -> Change {
        let mut change = Change { places: random.order(level.len()), sequences: Vec::new(), matrices: Vec::new() };
        for rep in level {
            let sequence = random.order(rep.blocks.len());
            let width = rep.degree() / rep.blocks.len();
            let mut matrix = Dense::zero(rep.degree());
            for (place, &block) in sequence.iter().enumerate() {
                let scalar = random.below(m as usize) as u32;
                matrix.place(place * width, block * width, &below.matrices[rep.blocks[block]].scaled(scalar, m));
            }
            change.sequences.push(sequence);
            change.matrices.push(matrix);
        }
        change
    }

    /// Appends the lines of a representation.
    #[allow(clippy::too_many_arguments)]
    fn lines(&self, random: &mut Random, i: usize, level: &[Rep], number: usize, below: &Change, m: u32, words: &mut Vec<u32>) {
        let rep = &level[number];
        let back = self.matrices[number].inverse(m);
        let width = rep.degree() / rep.blocks.len();
        for (k, matrix) in rep.matrices.iter().enumerate() {
            let (to, scalar) = if k < i { (number, 0) } else { (rep.leads[k], random.below(m as usize) as u32) };
            let matrix = self.matrices[to].times(matrix, m).times(&back, m).scaled(scalar, m);
            for column in 0..rep.degree() {
                let (row, exponent) = matrix.entry(column);
                let block = rep.blocks[self.sequences[number][column / width]];
                let reference = if k < i { below.places[block] } else { self.places[to] };
                let line = [i, self.places[number], rep.degree(), k + 1, reference, column, row, exponent as usize];
                words.extend(line.map(|word| word as u32));
            }
        }
    }
}

/// The words that stand in for one word.
pub fn instead(word: u32, m: u32) -> [u32; 8] {
    [0, 1, 2, word.wrapping_add(1), word.wrapping_sub(1), m - 1, m, u32::MAX]
}

/// A table with one thing changed.
pub fn damaged(random: &mut Random, words: &[u32], m: u32) -> Vec<u32> {
    let mut table = words.to_vec();
    let lines = words.len() / 8;
    let line = random.below(lines);
    let other = random.below(lines);
    match random.below(15) {
        0 => drop(table.drain(8 * line..8 * line + 8)),
        1 => table.extend_from_slice(&words[8 * line..8 * line + 8]),
        2 => (0..8).for_each(|k| table.swap(8 * line + k, 8 * other + k)),
        3 => table.truncate(random.below(words.len() + 1)),
        4 => table.truncate(8 * line),
        5 => table.retain_whole(words[8 * line], words[8 * line + 1]),
        6 => table.swap(8 * line + 7, 8 * other + 7),
        7 => {
            table.swap(8 * line + 6, 8 * other + 6);
            table.swap(8 * line + 7, 8 * other + 7);
        }
        8 => {
            // a scalar on one matrix
            let (head, more) = (words[8 * line..8 * line + 4].to_vec(), random.below(m as usize) as u32);
            for l in table.chunks_mut(8).filter(|l| l[..4] == head) {
                l[7] = (l[7] + more) % m;
            }
        }
        9..=10 => {
            // a matrix with other references in all its columns
            let (head, to) = (words[8 * line..8 * line + 4].to_vec(), words[8 * other + 1]);
            for l in table.chunks_mut(8).filter(|l| l[..4] == head) {
                l[4] = to;
            }
        }
        11 => table = joined(random, words),
        _ => {
            let at = random.below(words.len());
            table[at] = *random.pick(&instead(words[at], m));
        }
    }
    table
}

/// Some representations of the last level made into one, their direct sum.
fn joined(random: &mut Random, words: &[u32]) -> Vec<u32> {
    let level = words[words.len() - 8];
    let mut reps: Vec<Vec<&[u32]>> = Vec::new();
    for line in words.chunks(8).filter(|line| line[0] == level) {
        reps.resize_with(reps.len().max(line[1] as usize + 1), Vec::new);
        reps[line[1] as usize].push(line);
    }
    let count = (1 + random.below(3)).min(reps.len());
    let chosen: Vec<Vec<&[u32]>> = random.order(reps.len())[..count].iter().map(|&k| std::mem::take(&mut reps[k])).collect();
    reps.retain(|rep| !rep.is_empty());
    let mut table: Vec<u32> = words.chunks(8).filter(|line| line[0] < level).flatten().copied().collect();
    let degree: u32 = chosen.iter().map(|rep| rep[0][2]).sum();
    for k in 1..=level {
        let mut start = 0;
        for rep in &chosen {
            for line in rep.iter().filter(|line| line[3] == k) {
                table.extend([level, 0, degree, k, line[4], line[5] + start, line[6] + start, line[7]]);
            }
            start += rep[0][2];
        }
    }
    for (number, rep) in (1..).zip(&reps) {
        for line in rep {
            table.extend([level, number]);
            table.extend_from_slice(&line[2..]);
        }
    }
    table
}

trait Retain {
    /// Leaves out one representation and renumbers those behind it.
    fn retain_whole(&mut self, level: u32, rep: u32);
}

impl Retain for Vec<u32> {
    fn retain_whole(&mut self, level: u32, rep: u32) {
        let kept = self.chunks(8).filter(|l| (l[0], l[1]) != (level, rep)).flat_map(|l| {
            let mut line = l.to_vec();
            if line[0] == level && line[1] > rep {
                line[1] -= 1;
            }
            line
        });
        *self = kept.collect();
    }
}
