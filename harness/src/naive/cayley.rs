//! The table of products with the generators.
//!
//! The normal forms of a level are numbered: e1 + p1·(e2 + p2·(e3 + ..)), so that level j − 1 is the first part of level j. A
//! level's table has, for each generator and each normal form x, the number of x·g. It is written down from the relations
//! as if they were consistent. They are exactly if the maps so written satisfy every relation at every normal form: then the
//! group acts, and takes the first normal form to each of the others by its own word.

use super::Relations;

#[derive(Clone)]
pub struct Cayley {
    pub primes: Vec<u32>,
    /// `right[k][x]` is x·g, g the generator k
    pub right: Vec<Vec<u32>>,
}

impl Cayley {
    /// The table of consistent relations.
    pub fn of(relations: &Relations) -> Option<Cayley> {
        let mut table = Cayley::trivial();
        for j in 0..relations.n() {
            table = table.extended(relations.primes[j], &relations.words[j])?;
        }
        Some(table)
    }

    /// Level 0.
    pub fn trivial() -> Cayley {
        Cayley { primes: Vec::new(), right: Vec::new() }
    }

    pub fn n(&self) -> usize {
        self.primes.len()
    }

    pub fn order(&self) -> usize {
        self.primes.iter().map(|&p| p as usize).product()
    }

    /// The exponents of a normal form.
    pub fn word(&self, x: usize) -> Vec<u32> {
        let mut rest = x;
        self.primes
            .iter()
            .map(|&p| {
                let e = rest % p as usize;
                rest /= p as usize;
                e as u32
            })
            .collect()
    }

    /// x times the generators of a word, from the last generator down; a short word has zeros behind it.
    pub fn times_word(&self, x: usize, word: &[u32]) -> usize {
        let mut at = x;
        for k in (0..self.n()).rev() {
            for _ in 0..word.get(k).copied().unwrap_or(0) {
                at = self.right[k][at] as usize;
            }
        }
        at
    }

    pub fn times(&self, x: usize, y: usize) -> usize {
        self.times_word(x, &self.word(y))
    }

    pub fn power(&self, x: usize, e: usize) -> usize {
        (0..e).fold(0, |at, _| self.times(at, x))
    }

    /// The order is small: the inverse is found by walking powers.
    pub fn inverse(&self, x: usize) -> usize {
        let mut at = 0;
        loop {
            let next = self.times(at, x);
            if next == 0 {
                return at;
            }
            at = next;
        }
    }

    /// The level above, by a generator of prime p with its words: those of the commutators, then that of its power. None if a
    /// relation of it fails.
    pub fn extended(&self, p: u32, words: &[Vec<u32>]) -> Option<Cayley> {
        let (j, low, p) = (self.n(), self.order(), p as usize);
        // where conjugation by the new generator takes each normal form of this level: the images of its generators multiplied
        let mut image = vec![0usize; low];
        for x in 1..low {
            let word = self.word(x);
            let k = word.iter().position(|&e| e > 0)?;
            let before = x - self.primes[..k].iter().map(|&q| q as usize).product::<usize>();
            image[x] = self.times_word(self.right[k][image[before]] as usize, &words[k]);
        }
        let mut right: Vec<Vec<u32>> =
            (0..j).map(|k| (0..low * p).map(|x| self.right[k][x % low] + (x - x % low) as u32).collect()).collect();
        let power = self.times_word(0, &words[j]);
        let turned: Vec<usize> = (0..low).map(|h| self.times(power, image[h])).collect();
        right.push(
            (0..low * p).map(|x| if x / low + 1 < p { x - x % low + low + image[x % low] } else { turned[x % low] } as u32).collect(),
        );
        let mut primes = self.primes.clone();
        primes.push(p as u32);
        let table = Cayley { primes, right };
        table.new_relations_hold(words).then_some(table)
    }

    /// Whether the relations of the last generator hold at every normal form. Those below hold since its powers are carried along.
    fn new_relations_hold(&self, words: &[Vec<u32>]) -> bool {
        let j = self.n() - 1;
        let go = |k: usize, x: usize| self.right[k][x] as usize;
        (0..self.order()).all(|x| {
            let power = (0..self.primes[j]).fold(x, |at, _| go(j, at));
            power == self.times_word(x, &words[j]) && (0..j).all(|k| go(j, go(k, x)) == self.times_word(go(k, go(j, x)), &words[k]))
        })
    }
}
