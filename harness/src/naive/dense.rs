//! Square matrices of powers of a root of unity and zeros.

/// The d·d entries, column after column: an exponent, or none for zero.
#[derive(Clone, Debug, PartialEq, Eq)]
pub struct Dense {
    pub d: usize,
    pub entries: Vec<Option<u32>>,
}

impl Dense {
    pub fn zero(d: usize) -> Dense {
        Dense { d, entries: vec![None; d * d] }
    }

    pub fn identity(d: usize) -> Dense {
        let mut one = Dense::zero(d);
        for k in 0..d {
            one.put(k, k, 0);
        }
        one
    }

    pub fn put(&mut self, row: usize, column: usize, exponent: u32) {
        self.entries[column * self.d + row] = Some(exponent);
    }

    /// The row of a column's entry, and its exponent.
    pub fn entry(&self, column: usize) -> (usize, u32) {
        let column = &self.entries[column * self.d..(column + 1) * self.d];
        let row = column.iter().position(Option::is_some).expect("a monomial matrix has an entry in each column");
        (row, column[row].expect("it was found"))
    }

    /// The product, the right factor first. Each entry is a sum of products of which at most one is not zero.
    pub fn times(&self, right: &Dense, m: u32) -> Dense {
        let mut product = Dense::zero(self.d);
        for column in 0..self.d {
            for middle in 0..self.d {
                let Some(b) = right.entries[column * self.d + middle] else { continue };
                for row in 0..self.d {
                    if let Some(a) = self.entries[middle * self.d + row] {
                        product.put(row, column, (a + b) % m);
                    }
                }
            }
        }
        product
    }

    pub fn scaled(&self, exponent: u32, m: u32) -> Dense {
        Dense { d: self.d, entries: self.entries.iter().map(|e| e.map(|e| (e + exponent) % m)).collect() }
    }

    /// The conjugate transpose.
    pub fn inverse(&self, m: u32) -> Dense {
        let mut inverse = Dense::zero(self.d);
        for column in 0..self.d {
            let (row, exponent) = self.entry(column);
            inverse.put(column, row, (m - exponent % m) % m);
        }
        inverse
    }

    pub fn power(&self, e: u32, m: u32) -> Dense {
        (0..e).fold(Dense::identity(self.d), |power, _| self.times(&power, m))
    }

    /// Puts a smaller matrix where a row and a column begin.
    pub fn place(&mut self, row: usize, column: usize, block: &Dense) {
        for k in 0..block.d {
            let (r, exponent) = block.entry(k);
            self.put(row + r, column + k, exponent);
        }
    }
}

/// The matrix of a word: the last generator's power on the left.
pub fn value(matrices: &[Dense], word: &[u32], m: u32) -> Dense {
    let mut product = Dense::identity(matrices[0].d);
    for (matrix, &e) in matrices.iter().zip(word) {
        for _ in 0..e {
            product = matrix.times(&product, m);
        }
    }
    product
}
