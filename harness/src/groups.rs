//! Presentations to try.
//!
//!   shapes            every presentation of at most three generators and order at most 27 that 11 to 14 allow
//!   random_group      a consistent presentation of order at most a bound, written in generators taken at random
//!   cyclic            the cyclic group of order 2^k
//!   grown             a consistent presentation of given primes
//!   random_words      a presentation of given primes whose words are taken at random: seldom consistent

use crate::naive::cayley::Cayley;
use crate::naive::Relations;
use crate::random::Random;

const PRIMES: [u32; 9] = [2, 3, 5, 7, 11, 13, 17, 19, 23];

/// The last generator that the word of (j, i) may have, plus one.
fn reach(j: usize, i: usize) -> usize {
    if i == j {
        j
    } else {
        i + 1
    }
}

/// Calls `use_it` for every presentation of n generators up to the order, with primes in every sequence.
pub fn shapes(n: usize, order: usize, use_it: &mut dyn FnMut(&Relations)) {
    let mut primes = vec![0usize; n];
    loop {
        let chosen: Vec<u32> = primes.iter().map(|&k| PRIMES[k]).collect();
        if chosen.iter().map(|&p| p as usize).product::<usize>() <= order {
            all_words(&chosen, use_it);
        }
        let Some(next) = (0..n).find(|&k| primes[k] + 1 < PRIMES.len()) else { return };
        primes[next] += 1;
        primes[..next].fill(0);
    }
}

/// Calls `use_it` for every choice of words.
fn all_words(primes: &[u32], use_it: &mut dyn FnMut(&Relations)) {
    let n = primes.len();
    let mut relations = Relations { primes: primes.to_vec(), words: vec![vec![vec![0; n]; n]; n] };
    let places: Vec<(usize, usize, usize)> =
        (0..n).flat_map(|j| (0..=j).flat_map(move |i| (0..reach(j, i)).map(move |k| (j, i, k)))).collect();
    loop {
        use_it(&relations);
        let mut carry = true;
        for &(j, i, k) in &places {
            let e = &mut relations.words[j][i][k];
            *e += 1;
            carry = *e == primes[k];
            if !carry {
                break;
            }
            *e = 0;
        }
        if carry {
            return;
        }
    }
}

/// A word of (j, i) with each exponent 0 but once in so many times.
fn random_word(random: &mut Random, primes: &[u32], j: usize, i: usize, times: usize) -> Vec<u32> {
    let mut word = vec![0; primes.len()];
    for k in 0..reach(j, i) {
        if random.once_in(times) {
            word[k] = random.below(primes[k] as usize) as u32;
        }
    }
    word
}

pub fn random_words(random: &mut Random, primes: &[u32], times: usize) -> Relations {
    let n = primes.len();
    let words =
        (0..n).map(|j| (0..n).map(|i| if i <= j { random_word(random, primes, j, i, times) } else { vec![0; n] }).collect()).collect();
    Relations { primes: primes.to_vec(), words }
}

/// Primes whose product is at most the bound.
fn random_primes(random: &mut Random, bound: usize) -> Vec<u32> {
    let mut primes = Vec::new();
    let mut order = 1;
    let favourite = *random.pick(&[2u32, 2, 2, 3, 5]);
    if random.once_in(4) {
        let large = *random.pick(&[5u32, 7, 11, 13, 17, 19, 31, 43, 61, 127, 241, 457, 1021, 2039, 4099, 8191]);
        if large as usize * 2 <= bound {
            primes.push(large);
            order = large as usize;
        }
    }
    while primes.len() < 14 {
        let p = if random.once_in(4) { *random.pick(&PRIMES[..4]) } else { favourite };
        if order * p as usize > bound || (!primes.is_empty() && random.once_in(16)) {
            break;
        }
        primes.push(p);
        order *= p as usize;
    }
    if primes.is_empty() {
        primes.push(2);
    }
    primes
}

pub fn cyclic(k: usize) -> Relations {
    let mut relations = Relations { primes: vec![2; k], words: vec![vec![vec![0; k]; k]; k] };
    for j in 1..k {
        relations.words[j][j][j - 1] = 1;
    }
    relations
}

pub fn random_group(random: &mut Random, bound: usize) -> Relations {
    let primes = random_primes(random, bound);
    grown(random, &primes)
}

/// Level by level: a generator whose words are taken at random and fit, or one that acts as an element of the level does, or
/// one that commutes with all.
pub fn grown(random: &mut Random, primes: &[u32]) -> Relations {
    let mut table = Cayley::trivial();
    for (j, &p) in primes.iter().enumerate() {
        table = level(random, &table, primes, j).unwrap_or_else(|| table.extended(p, &vec![vec![0; j]; j + 1]).expect("a direct factor"));
    }
    rewritten(random, &table)
}

fn level(random: &mut Random, table: &Cayley, primes: &[u32], j: usize) -> Option<Cayley> {
    let p = primes[j];
    if random.once_in(6) {
        return None;
    }
    if random.once_in(3) {
        return table.extended(p, &inner(table, random.below(table.order()), p as usize));
    }
    let tries = if table.order() <= 64 { 60 } else { 4 };
    for _ in 0..tries {
        let times = 1 + random.below(4);
        let words: Vec<Vec<u32>> = (0..=j).map(|i| random_word(random, &primes[..j], j, i, times)).collect();
        if let Some(above) = table.extended(p, &words) {
            return Some(above);
        }
    }
    None
}

/// The words of a generator that acts as h does and has h's power.
fn inner(table: &Cayley, h: usize, p: usize) -> Vec<Vec<u32>> {
    let back = table.inverse(h);
    let mut words: Vec<Vec<u32>> = (0..table.n())
        .map(|k| {
            let g = table.right[k][0] as usize;
            let left = table.times(table.inverse(g), back);
            table.word(table.times(table.times(left, g), h))
        })
        .collect();
    words.push(table.word(table.power(h, p)));
    words
}

/// The relations of the group in other generators: each a power of the old one times an element of the level below.
pub fn rewritten(random: &mut Random, table: &Cayley) -> Relations {
    let n = table.n();
    let mut low = 1;
    let mut generators = Vec::new();
    for k in 0..n {
        let p = table.primes[k] as usize;
        let power = low * (1 + random.below(p - 1));
        generators.push(table.times(power, if random.once_in(4) { 0 } else { random.below(low) }));
        low *= p;
    }
    // the exponents of each element in the generators
    let mut words = vec![vec![0u32; n]; table.order()];
    let mut orders = vec![1];
    for k in 0..n {
        orders.push(orders[k] * table.primes[k] as usize);
    }
    let mut points = vec![0usize];
    for k in 0..n {
        let mut power = 0;
        let level = points.clone();
        for e in 1..table.primes[k] {
            power = table.times(power, generators[k]);
            for &h in &level {
                let mut word = words[h].clone();
                word[k] = e;
                let x = table.times(power, h);
                words[x] = word;
                points.push(x);
            }
        }
    }
    let inverses: Vec<usize> = generators.iter().map(|&g| table.inverse(g)).collect();
    let commutator = |i: usize, j: usize| {
        let left = table.times(inverses[i], inverses[j]);
        table.times(table.times(left, generators[i]), generators[j])
    };
    let mut said = vec![vec![vec![0; n]; n]; n];
    for j in 0..n {
        for i in 0..j {
            said[j][i] = words[commutator(i, j)].clone();
        }
        said[j][j] = words[table.power(generators[j], table.primes[j] as usize)].clone();
    }
    Relations { primes: table.primes.clone(), words: said }
}
