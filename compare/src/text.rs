//! Reading the text of a book.

use crate::kinds::Kind;

/// The refusal of sizes outside their limits.
pub const SIZES_OUTSIDE_LIMITS: u8 = 1;
/// The refusal of a sentence that is not well formed.
pub const MALFORMED_SENTENCE: u8 = 2;
/// The refusal of a number that is no label of the kind.
pub const NO_SUCH_LABEL: u8 = 3;
/// The refusal of a sentence for which the book has no cell left.
pub const BOOK_FULL: u8 = 4;
/// The refusal of a line that is not as it should be.
pub const MALFORMED_LINE: u8 = 11;

/// The first line of every text.
const FIRST_HEADER: &[u8] = b"concepts roles units";
/// The third line of every text.
const SECOND_HEADER: &[u8] = b"form first second role third label";

/// The largest number that a size or a name may have in a text: 16 bits.
const LARGEST_NAME: u64 = 65_535;
/// The largest number that a form may have in a text: 8 bits.
const LARGEST_FORM: u64 = 255;
/// The largest number that a label may have in a text: 64 bits.
const LARGEST_LABEL: u64 = u64::MAX;

/// Why and at which line a text or a book is refused. Line 0 stands for a
/// refusal that does not come from reading.
#[derive(Clone, Copy, Debug, PartialEq, Eq)]
pub struct Refusal {
    /// The number of the refusal.
    pub number: u8,
    /// The line, counted from 1, or 0.
    pub line: usize,
}

/// How many concepts, roles and units a book speaks of.
#[derive(Clone, Copy, Debug, PartialEq, Eq)]
pub struct Sizes {
    /// The number of concepts.
    pub concepts: usize,
    /// The number of roles.
    pub roles: usize,
    /// The number of units.
    pub units: usize,
}

impl Sizes {
    /// The number of nodes: every concept and every unit is one.
    pub fn nodes(&self) -> usize {
        self.concepts + self.units
    }

    /// Whether the sizes are within their limits.
    fn within_limits(&self) -> bool {
        (1..=512).contains(&self.concepts) && self.roles <= 32 && self.units <= 512
    }
}

/// One sentence of a book.
#[derive(Clone, Copy, Debug, PartialEq, Eq)]
pub struct Sentence<Label> {
    /// The form, 1 to 6 where the sentence is well formed.
    pub form: u64,
    /// The first name.
    pub first: usize,
    /// The second name.
    pub second: usize,
    /// The role.
    pub role: usize,
    /// The third name.
    pub third: usize,
    /// The label.
    pub label: Label,
}

/// A book: its sizes and its sentences in order.
#[derive(Clone, Debug, PartialEq, Eq)]
pub struct Book<Label> {
    /// The sizes.
    pub sizes: Sizes,
    /// The sentences, all of them well formed for the sizes.
    pub sentences: Vec<Sentence<Label>>,
}

/// The lines of a text that are still to be read.
struct Lines<'a> {
    /// The bytes not yet taken.
    rest: &'a [u8],
    /// The number of the line taken last, counted from 1.
    number: usize,
}

impl<'a> Lines<'a> {
    /// Takes the next line without its line feed. It is refused when there is
    /// none, and when its line feed is missing.
    fn take(&mut self) -> Result<&'a [u8], Refusal> {
        self.number += 1;
        match self.rest.iter().position(|byte| *byte == b'\n') {
            Some(end) => {
                let line = &self.rest[..end];
                self.rest = &self.rest[end + 1..];
                Ok(line)
            }
            None => Err(self.refusal(MALFORMED_LINE)),
        }
    }

    /// Takes the next line and asks that it be just this one.
    fn take_exactly(&mut self, expected: &[u8]) -> Result<(), Refusal> {
        if self.take()? == expected { Ok(()) } else { Err(self.refusal(MALFORMED_LINE)) }
    }

    /// Takes the next line and reads numbers from it, one for each limit.
    fn take_numbers<const COUNT: usize>(&mut self, limits: [u64; COUNT]) -> Result<[u64; COUNT], Refusal> {
        let line = self.take()?;
        numbers_of(line, limits).ok_or(self.refusal(MALFORMED_LINE))
    }

    /// The refusal of the line taken last.
    fn refusal(&self, number: u8) -> Refusal {
        Refusal { number, line: self.number }
    }
}

/// Reads a book from its text. The book has room for so many sentences.
pub fn read_book<K: Kind>(bytes: &[u8], cells: usize) -> Result<Book<K::Label>, Refusal> {
    let mut lines = Lines { rest: bytes, number: 0 };
    lines.take_exactly(FIRST_HEADER)?;
    let sizes = read_sizes(&mut lines)?;
    lines.take_exactly(SECOND_HEADER)?;
    let mut sentences = Vec::new();
    while !lines.rest.is_empty() {
        let sentence = read_sentence::<K>(&mut lines, &sizes)?;
        if sentences.len() == cells {
            return Err(lines.refusal(BOOK_FULL));
        }
        sentences.push(sentence);
    }
    Ok(Book { sizes, sentences })
}

/// Reads the line of the sizes.
fn read_sizes(lines: &mut Lines) -> Result<Sizes, Refusal> {
    let [concepts, roles, units] = lines.take_numbers([LARGEST_NAME; 3])?;
    let sizes = Sizes { concepts: concepts as usize, roles: roles as usize, units: units as usize };
    if sizes.within_limits() { Ok(sizes) } else { Err(lines.refusal(SIZES_OUTSIDE_LIMITS)) }
}

/// Reads the line of a sentence.
fn read_sentence<K: Kind>(lines: &mut Lines, sizes: &Sizes) -> Result<Sentence<K::Label>, Refusal> {
    let [form, first, second, role, third, number] =
        lines.take_numbers([LARGEST_FORM, LARGEST_NAME, LARGEST_NAME, LARGEST_NAME, LARGEST_NAME, LARGEST_LABEL])?;
    let names = [first, second, role, third].map(|name| name as usize);
    if !well_formed(form, names, sizes) {
        return Err(lines.refusal(MALFORMED_SENTENCE));
    }
    let label = K::from_number(number).ok_or(lines.refusal(NO_SUCH_LABEL))?;
    let [first, second, role, third] = names;
    Ok(Sentence { form, first, second, role, third, label })
}

/// Whether a form and its names make a well-formed sentence for these sizes.
fn well_formed(form: u64, names: [usize; 4], sizes: &Sizes) -> bool {
    match name_bounds(form, sizes) {
        Some(bounds) => names.iter().zip(bounds).all(|(name, bound)| *name < bound),
        None => false,
    }
}

/// The bounds that the first name, the second, the role and the third must
/// stay below. A name that the form does not use must be 0: its bound is 1.
fn name_bounds(form: u64, sizes: &Sizes) -> Option<[usize; 4]> {
    let Sizes { concepts, roles, units } = *sizes;
    match form {
        1 => Some([concepts, 1, 1, concepts]),
        2 => Some([concepts, concepts, 1, concepts]),
        3 | 4 => Some([concepts, 1, roles, concepts]),
        5 => Some([units, 1, 1, concepts]),
        6 => Some([units, 1, roles, units]),
        _ => None,
    }
}

/// The numbers of a line, parted by single spaces, as many as there are limits.
fn numbers_of<const COUNT: usize>(line: &[u8], limits: [u64; COUNT]) -> Option<[u64; COUNT]> {
    let mut numbers = [0; COUNT];
    let mut words = line.split(|byte| *byte == b' ');
    for (number, limit) in numbers.iter_mut().zip(limits) {
        *number = number_of(words.next()?, limit)?;
    }
    match words.next() {
        None => Some(numbers),
        Some(_) => None,
    }
}

/// The number that a word is in decimal, without sign or leading zeros, if it
/// is one and is not above the limit.
fn number_of(word: &[u8], limit: u64) -> Option<u64> {
    if word.is_empty() || (word.len() > 1 && word[0] == b'0') {
        return None;
    }
    let mut number: u64 = 0;
    for byte in word {
        if !byte.is_ascii_digit() {
            return None;
        }
        let digit = u64::from(byte - b'0');
        number = number.checked_mul(10)?.checked_add(digit)?;
    }
    (number <= limit).then_some(number)
}

#[cfg(test)]
mod tests {
    use super::*;
    use crate::kinds::{Grades, Models};

    /// Numbers are decimal, without sign or leading zeros, up to the limit.
    #[test]
    fn numbers_are_plain_decimals() {
        assert_eq!(number_of(b"0", 0), Some(0));
        assert_eq!(number_of(b"65535", LARGEST_NAME), Some(65_535));
        assert_eq!(number_of(b"65536", LARGEST_NAME), None);
        assert_eq!(number_of(b"18446744073709551615", LARGEST_LABEL), Some(u64::MAX));
        assert_eq!(number_of(b"18446744073709551616", LARGEST_LABEL), None);
        for word in [&b""[..], b"00", b"01", b"+1", b"-1", b"1x", b"/", b":"] {
            assert_eq!(number_of(word, LARGEST_LABEL), None);
        }
    }

    /// A text of one sentence is read as it stands.
    #[test]
    fn a_text_is_read() {
        let text = b"concepts roles units\n4 1 1\nform first second role third label\n3 1 0 0 2 7\n";
        let sentence = Sentence { form: 3, first: 1, second: 0, role: 0, third: 2, label: 7_u64 };
        let sizes = Sizes { concepts: 4, roles: 1, units: 1 };
        let book = Book { sizes, sentences: vec![sentence] };
        assert_eq!(read_book::<Models>(text, 1), Ok(book));
        let full = Refusal { number: 4, line: 4 };
        assert_eq!(read_book::<Grades>(text, 0), Err(full));
    }
}
