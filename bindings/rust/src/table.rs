//! A table that passed, with views by level, representation and generator.
//!
//!   Table            all levels
//!   Level            the representations of one level
//!   Representation   a matrix for each generator
//!   Matrix           a generator's matrix, or its intertwiner
//!   Column           where a basis vector goes

use crate::{check, Refusal, LINE};

/// Places of the fields in a line.
const LEVEL: usize = 0;
const DEG: usize = 2;
const GEN: usize = 3;
const REF: usize = 4;
const ROW: usize = 6;
const EXP: usize = 7;

/// A table that was built, or that the check passed.
#[derive(Clone, Debug, PartialEq, Eq)]
pub struct Table {
    words: Vec<u32>,
    generators: usize,
    /// for each level the first line of each of its representations
    firsts: Vec<Vec<usize>>,
}

impl Table {
    /// The words as a table of the presentation text, if the check passes.
    pub fn checked(text: &[u8], words: Vec<u32>) -> Result<Table, Refusal> {
        check(text, &words)?;
        Ok(Table::indexed(words))
    }

    /// Words whose lines are known to be those of a table: the last line has the last generator, and a representation is as
    /// many lines as its degree for each generator.
    pub(crate) fn indexed(words: Vec<u32>) -> Table {
        let lines = words.len() / LINE;
        let field = |line: usize, place: usize| words[LINE * line + place] as usize;
        let generators = field(lines - 1, GEN);
        let mut firsts = Vec::new();
        let mut line = 0;
        while line < lines {
            firsts.resize_with(field(line, LEVEL), Vec::new);
            firsts[field(line, LEVEL) - 1].push(line);
            line += generators * field(line, DEG);
        }
        Table { words, generators, firsts }
    }

    /// The words, eight for each line.
    pub fn words(&self) -> &[u32] {
        &self.words
    }

    /// How many generators the group has, and levels its chief series.
    pub fn generators(&self) -> usize {
        self.generators
    }

    /// The order of the group, which exponents are modulo: the squares of the degrees of the last level.
    pub fn order(&self) -> usize {
        self.levels().last().map_or(1, |level| level.representations().map(|r| r.degree() * r.degree()).sum())
    }

    /// A level, from 1 on.
    pub fn level(&self, number: usize) -> Option<Level<'_>> {
        let firsts = self.firsts.get(number.checked_sub(1)?)?;
        Some(Level { table: self, number, firsts })
    }

    /// All levels, from 1 on.
    pub fn levels(&self) -> impl Iterator<Item = Level<'_>> {
        (1..=self.generators).filter_map(|number| self.level(number))
    }
}

/// The representations of one level.
#[derive(Clone, Copy, Debug)]
pub struct Level<'a> {
    table: &'a Table,
    number: usize,
    firsts: &'a [usize],
}

impl<'a> Level<'a> {
    /// Its number.
    pub fn number(&self) -> usize {
        self.number
    }

    /// How many representations it has.
    pub fn count(&self) -> usize {
        self.firsts.len()
    }

    /// A representation, from 0 on.
    pub fn representation(&self, number: usize) -> Option<Representation<'a>> {
        let first = *self.firsts.get(number)?;
        Some(Representation { table: self.table, level: self.number, number, first })
    }

    /// All representations, from 0 on.
    pub fn representations(&self) -> impl Iterator<Item = Representation<'a>> + 'a {
        let level = *self;
        (0..level.count()).filter_map(move |number| level.representation(number))
    }
}

/// A representation: a matrix for each generator of its level, and an intertwiner for each generator above.
#[derive(Clone, Copy, Debug)]
pub struct Representation<'a> {
    table: &'a Table,
    level: usize,
    number: usize,
    first: usize,
}

impl<'a> Representation<'a> {
    /// Its number on its level.
    pub fn number(&self) -> usize {
        self.number
    }

    /// Its degree.
    pub fn degree(&self) -> usize {
        self.table.words[LINE * self.first + DEG] as usize
    }

    /// The matrix of a generator, from 1 on; above the level it is the intertwiner.
    pub fn generator(&self, number: usize) -> Option<Matrix<'a>> {
        if number < 1 || self.table.generators < number {
            return None;
        }
        let start = self.first + (number - 1) * self.degree();
        Some(Matrix { lines: &self.table.words[LINE * start..LINE * (start + self.degree())], intertwines: self.level < number })
    }

    /// The representations of the level below that it restricts to, block after block; on level 1 there is one, number 0.
    pub fn blocks(&self) -> Vec<usize> {
        let below = self.level.checked_sub(1).and_then(|level| self.table.level(level));
        let mut blocks = Vec::new();
        let mut column = 0;
        let Some(matrix) = self.generator(1) else { return blocks };
        while let Some(entry) = matrix.column(column) {
            blocks.push(entry.reference);
            column += below.and_then(|level| level.representation(entry.reference)).map_or(1, |r| r.degree());
        }
        blocks
    }
}

/// A monomial matrix, column by column.
#[derive(Clone, Copy, Debug)]
pub struct Matrix<'a> {
    lines: &'a [u32],
    intertwines: bool,
}

impl Matrix<'_> {
    /// Its degree.
    pub fn degree(&self) -> usize {
        self.lines.len() / LINE
    }

    /// A column, from 0 on.
    pub fn column(&self, number: usize) -> Option<Column> {
        let line = self.lines.chunks_exact(LINE).nth(number)?;
        Some(Column { row: line[ROW] as usize, exponent: line[EXP], reference: line[REF] as usize })
    }

    /// All columns, from 0 on.
    pub fn columns(&self) -> impl Iterator<Item = Column> + '_ {
        (0..self.degree()).filter_map(|number| self.column(number))
    }

    /// Whether it is an intertwiner: of a generator above the level.
    pub fn intertwines(&self) -> bool {
        self.intertwines
    }
}

/// A basis vector goes to basis vector `row` times the root of unity to `exponent`. `reference` is the representation of the
/// level below whose block has the column; of an intertwiner it is the one that it leads to.
#[derive(Clone, Copy, Debug, PartialEq, Eq)]
pub struct Column {
    pub row: usize,
    pub exponent: u32,
    pub reference: usize,
}
