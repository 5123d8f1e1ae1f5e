//! The calls as they are, over slices: an answer is 0 or the number of a refusal, and a refused call leaves the caller's
//! buffer as it was.

/// An answer, and beside 0 a count of words, lines or bytes.
#[repr(C)]
#[derive(Clone, Copy, Debug, PartialEq, Eq)]
pub struct Counted {
    pub answer: u32,
    pub count: usize,
}

/// An answer, and beside 0 a yes, which is 1, or a no, which is 0.
#[repr(C)]
#[derive(Clone, Copy, Debug, PartialEq, Eq)]
pub struct Verdict {
    pub answer: u32,
    pub yes: u32,
}

extern "C" {
    fn chieftables_accept(text: *const u8, length: usize) -> u32;
    fn chieftables_measure(text: *const u8, length: usize) -> Counted;
    fn chieftables_commutative(text: *const u8, length: usize) -> Verdict;
    fn chieftables_build(text: *const u8, length: usize, words: *mut u32, have: usize) -> Counted;
    fn chieftables_check(text: *const u8, length: usize, words: *const u32, count: usize) -> u32;
    fn chieftables_read_table(text: *const u8, length: usize, words: *mut u32, have: usize) -> Counted;
    fn chieftables_write_table(words: *const u32, length: usize, out: *mut u8, room: usize) -> Counted;
}

// Each call below hands over slices, so the memory is there for the whole call and what is written overlaps nothing that is
// read. That the library touches nothing outside them, and answers any bytes and words, is proved of it.

/// The number that a presentation text is refused with, or 0.
pub fn accept(text: &[u8]) -> u32 {
    unsafe { chieftables_accept(text.as_ptr(), text.len()) }
}

/// The words that a build of a presentation text wants.
pub fn measure(text: &[u8]) -> Counted {
    unsafe { chieftables_measure(text.as_ptr(), text.len()) }
}

/// Whether every representation of the last level of the table of a presentation text has degree 1.
pub fn commutative(text: &[u8]) -> Verdict {
    unsafe { chieftables_commutative(text.as_ptr(), text.len()) }
}

/// Builds the table of a presentation text from the first word on; counts its lines.
pub fn build(text: &[u8], words: &mut [u32]) -> Counted {
    unsafe { chieftables_build(text.as_ptr(), text.len(), words.as_mut_ptr(), words.len()) }
}

/// The number that a presentation text, or words as its table, are refused with, or 0.
pub fn check(text: &[u8], words: &[u32]) -> u32 {
    unsafe { chieftables_check(text.as_ptr(), text.len(), words.as_ptr(), words.len()) }
}

/// Reads table text from the first word on; counts its lines.
pub fn read_table(text: &[u8], words: &mut [u32]) -> Counted {
    unsafe { chieftables_read_table(text.as_ptr(), text.len(), words.as_mut_ptr(), words.len()) }
}

/// Writes words as table text from the first byte on; counts its bytes.
pub fn write_table(words: &[u32], out: &mut [u8]) -> Counted {
    unsafe { chieftables_write_table(words.as_ptr(), words.len(), out.as_mut_ptr(), out.len()) }
}
