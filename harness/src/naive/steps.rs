//! The table of a presentation, level by level, with whole matrices. Where an intertwiner leads is found by trying every
//! extension, and the scalars on blocks by putting each equation to use until all are known.

use super::dense::{value, Dense};
use super::Relations;

/// A representation of a level: a matrix for each generator, of those above the level the intertwiner and where it leads.
#[derive(Clone)]
pub struct Rep {
    pub matrices: Vec<Dense>,
    pub leads: Vec<usize>,
    /// the representations of the level below, a number for each block
    pub blocks: Vec<usize>,
}

impl Rep {
    pub fn degree(&self) -> usize {
        self.matrices[0].d
    }
}

/// The words of the table.
pub fn table(relations: &Relations) -> Vec<u32> {
    let levels = levels(relations);
    let mut words = Vec::new();
    for (i, level) in levels.iter().enumerate().skip(1) {
        for (number, rep) in level.iter().enumerate() {
            for (k, matrix) in rep.matrices.iter().enumerate() {
                for column in 0..rep.degree() {
                    let (row, exponent) = matrix.entry(column);
                    let below = rep.blocks[column / (rep.degree() / rep.blocks.len())];
                    let reference = if k < i { below } else { rep.leads[k] };
                    let line = [i, number, rep.degree(), k + 1, reference, column, row, exponent as usize];
                    words.extend(line.map(|word| word as u32));
                }
            }
        }
    }
    words
}

/// All levels, from level 0 on.
pub fn levels(relations: &Relations) -> Vec<Vec<Rep>> {
    let n = relations.n();
    let first = Rep { matrices: vec![Dense::identity(1); n], leads: vec![0; n], blocks: vec![0] };
    let mut levels = vec![vec![first]];
    for i in 0..n {
        levels.push(above(relations, i, &levels[i]));
    }
    levels
}

/// The level that generator i makes from the one below it.
fn above(relations: &Relations, i: usize, low: &[Rep]) -> Vec<Rep> {
    let m = relations.order() as u32;
    let p = relations.primes[i];
    let mut level: Vec<Rep> = Vec::new();
    for (f, rep) in low.iter().enumerate() {
        if rep.leads[i] == f {
            extend(relations, i, f, rep, &mut level);
        } else if !level.iter().any(|d| d.blocks.contains(&f)) {
            level.push(induced(relations, i, f, low));
        }
    }
    for number in 0..level.len() {
        for j in i + 1..relations.n() {
            let word = &relations.words[j][i];
            let (matrix, leads) = if level[number].blocks.len() == 1 {
                carried_extension(&level, low, number, i, j, word, m)
            } else {
                carried_induction(&level, low, number, i, j, word, m, p as usize)
            };
            level[number].matrices[j] = matrix;
            level[number].leads[j] = leads;
        }
    }
    level
}

/// Adds the extensions of representation f.
fn extend(relations: &Relations, i: usize, f: usize, rep: &Rep, level: &mut Vec<Rep>) {
    let (m, p) = (relations.order() as u32, relations.primes[i]);
    let turn = &rep.matrices[i];
    let (row, want) = value(&rep.matrices, &relations.words[i][i], m).entry(0);
    let (same, have) = turn.power(p, m).entry(0);
    let s = (want + m - have) % m;
    assert!(row == same && s % p == 0);
    for k in 0..p {
        let mut extension = Rep { matrices: rep.matrices.clone(), leads: vec![0; relations.n()], blocks: vec![f] };
        extension.matrices[i] = turn.scaled(s / p + k * (m / p), m);
        level.push(extension);
    }
}

/// The representation induced from f.
fn induced(relations: &Relations, i: usize, f: usize, low: &[Rep]) -> Rep {
    let (m, p, d) = (relations.order() as u32, relations.primes[i] as usize, low[f].degree());
    let mut blocks = vec![f];
    while blocks.len() < p {
        blocks.push(low[blocks[blocks.len() - 1]].leads[i]);
    }
    let mut matrices = vec![Dense::identity(d * p); relations.n()];
    for (k, matrix) in matrices.iter_mut().enumerate().take(i) {
        *matrix = Dense::zero(d * p);
        for (b, &block) in blocks.iter().enumerate() {
            matrix.place(b * d, b * d, &low[block].matrices[k]);
        }
    }
    let mut around = Dense::identity(d);
    let mut top = Dense::zero(d * p);
    for b in 0..p - 1 {
        let step = &low[blocks[b]].matrices[i];
        top.place((b + 1) * d, b * d, step);
        around = step.times(&around, m);
    }
    let back = value(&low[f].matrices, &relations.words[i][i], m).times(&around.inverse(m), m);
    top.place(0, (p - 1) * d, &back);
    matrices[i] = top;
    Rep { matrices, leads: vec![0; relations.n()], blocks }
}

/// What the intertwiner is to send the generator on top to, once it is carried: D(gi) D(w).
fn conjugate(rep: &Rep, i: usize, word: &[u32], m: u32) -> Dense {
    rep.matrices[i].times(&value(&rep.matrices, word, m), m)
}

/// The intertwiner of generator j at an extension is that of the representation below; it leads to the extension that fits.
fn carried_extension(level: &[Rep], low: &[Rep], number: usize, i: usize, j: usize, word: &[u32], m: u32) -> (Dense, usize) {
    let below = &low[level[number].blocks[0]];
    let carrier = below.matrices[j].clone();
    let sent = carrier.times(&conjugate(&level[number], i, word, m), m).times(&carrier.inverse(m), m);
    let fits = |d: &Rep| d.blocks == [below.leads[j]] && d.matrices[i] == sent;
    let leads = level.iter().position(fits).expect("an extension fits");
    (carrier, leads)
}

/// At an induction it takes blocks to blocks by the intertwiners below times scalars; that of block 0 is 1, and an equation
/// between a block that is known and one that is not tells the latter.
#[allow(clippy::too_many_arguments)]
fn carried_induction(level: &[Rep], low: &[Rep], number: usize, i: usize, j: usize, word: &[u32], m: u32, p: usize) -> (Dense, usize) {
    let from = &level[number];
    let d = from.degree() / p;
    let to_block = |b: usize| low[from.blocks[b]].leads[j];
    let leads = level.iter().position(|t| t.blocks.contains(&to_block(0))).expect("the orbit is listed");
    let to = &level[leads];
    let mut plain = Dense::zero(from.degree());
    for b in 0..p {
        let place = to.blocks.iter().position(|&t| t == to_block(b)).expect("a block of the orbit");
        plain.place(place * d, b * d, &low[from.blocks[b]].matrices[j]);
    }
    let sent = plain.times(&conjugate(from, i, word, m), m);
    let back = to.matrices[i].times(&plain, m);
    let through = conjugate(from, i, word, m);
    let mut scalars: Vec<Option<u32>> = vec![None; p];
    scalars[0] = Some(0);
    while scalars.contains(&None) {
        for column in 0..from.degree() {
            let next = through.entry(column).0 / d;
            if let (Some(c), None) = (scalars[column / d], scalars[next]) {
                scalars[next] = Some((c + back.entry(column).1 + m - sent.entry(column).1) % m);
            }
        }
    }
    let mut matrix = Dense::zero(from.degree());
    for column in 0..from.degree() {
        let (row, exponent) = plain.entry(column);
        matrix.put(row, column, (exponent + scalars[column / d].expect("all are known")) % m);
    }
    assert!(matrix.times(&through, m) == to.matrices[i].times(&matrix, m));
    (matrix, leads)
}
