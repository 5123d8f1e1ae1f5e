//! Why a call refuses.

use crate::raw::{Counted, Verdict};
use std::fmt;

/// The refusals, each with its number.
#[derive(Clone, Copy, Debug, PartialEq, Eq, Hash)]
#[repr(u32)]
pub enum Refusal {
    PresentationForm = 11,
    NotPrime = 12,
    TooLarge = 13,
    Word = 14,
    Inconsistent = 15,
    Short = 16,
    TableForm = 20,
    Lines = 21,
    Relation = 22,
    Restriction = 23,
    Intertwiner = 24,
    Separation = 25,
    Squares = 26,
}

impl Refusal {
    /// All of them, by number.
    pub const ALL: [Refusal; 13] = [
        Refusal::PresentationForm,
        Refusal::NotPrime,
        Refusal::TooLarge,
        Refusal::Word,
        Refusal::Inconsistent,
        Refusal::Short,
        Refusal::TableForm,
        Refusal::Lines,
        Refusal::Relation,
        Refusal::Restriction,
        Refusal::Intertwiner,
        Refusal::Separation,
        Refusal::Squares,
    ];

    /// The refusal of a number.
    pub fn of(number: u32) -> Option<Refusal> {
        Refusal::ALL.into_iter().find(|refusal| refusal.number() == number)
    }

    /// Its number.
    pub fn number(self) -> u32 {
        self as u32
    }

    /// What it says, without the number.
    pub fn sentence(self) -> &'static str {
        match self {
            Refusal::PresentationForm => "the presentation text is not in the form",
            Refusal::NotPrime => "the p of a line with i = j is not prime",
            Refusal::TooLarge => "there are more than 14 generators, or the order is above 16,384",
            Refusal::Word => "an exponent is not below its prime, a word has a generator that it may not have, or a p is not 0 where i < j",
            Refusal::Inconsistent => "the presentation is not consistent: two of its normal forms are equal",
            Refusal::Short => "the buffer is shorter than the call wants",
            Refusal::TableForm => "the table text is not in the form",
            Refusal::Lines => "the words are not the lines of a table",
            Refusal::Relation => "a relation fails",
            Refusal::Restriction => "a restriction differs from the blocks that are listed",
            Refusal::Intertwiner => "an intertwiner fails, or leads to another degree",
            Refusal::Separation => "a basis index is not reached, or two are not separated",
            Refusal::Squares => "the squares of the degrees do not add up to the order",
        }
    }
}

impl fmt::Display for Refusal {
    fn fmt(&self, out: &mut fmt::Formatter) -> fmt::Result {
        write!(out, "{}: {}", self.number(), self.sentence())
    }
}

impl std::error::Error for Refusal {}

/// Nothing for 0, else the refusal. No call answers another number: that is proved of the library.
pub(crate) fn answer(number: u32) -> Result<(), Refusal> {
    if number == 0 {
        return Ok(());
    }
    Err(Refusal::of(number).unwrap_or_else(|| panic!("{number} is no answer of the library")))
}

/// The count beside 0, else the refusal.
pub(crate) fn counted(call: Counted) -> Result<usize, Refusal> {
    answer(call.answer).map(|()| call.count)
}

/// The yes or no beside 0, else the refusal.
pub(crate) fn told(call: Verdict) -> Result<bool, Refusal> {
    answer(call.answer).map(|()| call.yes == 1)
}
