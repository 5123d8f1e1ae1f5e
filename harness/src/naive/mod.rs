//! The calls once more, coded from docs/FORMAT.md without regard to time: texts are split at their line ends, consistency is
//! tried on the whole multiplication table, matrices are square arrays, separation walks every normal form. Nothing here is
//! shared with the library, so that the two can be compared.
//!
//!   text      presentation text and table text
//!   cayley    the table of products with the generators, and 15 by it
//!   dense     square matrices
//!   steps     the table of a presentation
//!   judge     the judgement of any words

pub mod cayley;
pub mod dense;
pub mod judge;
pub mod steps;
pub mod text;

use cayley::Cayley;

/// The relations that a text says, generators from 0.
#[derive(Clone, Debug, PartialEq, Eq)]
pub struct Relations {
    pub primes: Vec<u32>,
    /// `words[j][i]` for i < j is the word of the commutator, `words[j][j]` that of the power; above that it has zeros
    pub words: Vec<Vec<Vec<u32>>>,
}

impl Relations {
    pub fn n(&self) -> usize {
        self.primes.len()
    }

    /// The order of each level, from level 0 on.
    pub fn orders(&self) -> Vec<usize> {
        let mut orders = vec![1];
        for &p in &self.primes {
            orders.push(orders[orders.len() - 1] * p as usize);
        }
        orders
    }

    pub fn order(&self) -> usize {
        self.primes.iter().map(|&p| p as usize).product()
    }

    /// The words that a build wants.
    pub fn wants(&self) -> usize {
        8 * self.n() * self.orders()[1..].iter().sum::<usize>()
    }

    /// The presentation text.
    pub fn text(&self) -> Vec<u8> {
        let n = self.n();
        let mut text = text::names(n);
        for j in 0..n {
            for i in std::iter::once(j).chain(0..j) {
                let p = if i == j { self.primes[j] } else { 0 };
                text += &format!("\n{} {} {}", j + 1, i + 1, p);
                for e in &self.words[j][i] {
                    text += &format!(" {e}");
                }
            }
        }
        text += "\n";
        text.into_bytes()
    }
}

fn is_prime(p: u32) -> bool {
    p >= 2 && (2..p).take_while(|d| d * d <= p).all(|d| p % d != 0)
}

/// The answer to a presentation text, and beside 0 what it says.
pub fn accept(text: &[u8]) -> Result<Relations, u32> {
    let Some(lines) = text::presentation(text) else { return Err(11) };
    let n = lines.n;
    if !(0..n).all(|j| is_prime(lines.p[j][j])) {
        return Err(12);
    }
    let order = (0..n).fold(1u64, |order, j| order.saturating_mul(u64::from(lines.p[j][j])));
    if n > 14 || order > 16384 {
        return Err(13);
    }
    let primes: Vec<u32> = (0..n).map(|j| lines.p[j][j]).collect();
    for j in 0..n {
        for i in 0..=j {
            let last = if i == j { j } else { i + 1 };
            let word = &lines.words[j][i];
            let used = word.iter().zip(&primes).all(|(e, p)| e < p) && word[last..].iter().all(|&e| e == 0);
            if !used || (i < j && lines.p[j][i] != 0) {
                return Err(14);
            }
        }
    }
    let relations = Relations { primes, words: lines.words };
    if Cayley::of(&relations).is_none() {
        return Err(15);
    }
    Ok(relations)
}
