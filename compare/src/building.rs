//! The parts from which the table of texts is built.

use crate::programs::Program;

/// A text, the program it is for, and the answer worked by hand.
#[derive(Clone, Debug)]
pub struct Sample {
    /// The name of the file, in words that say what the text is.
    pub name: &'static str,
    /// The program that the text is for.
    pub program: Program,
    /// The text itself.
    pub bytes: Vec<u8>,
    /// The answer worked by hand.
    pub expected: Expected,
}

/// An answer worked by hand, as far as it was.
#[derive(Clone, Debug)]
pub enum Expected {
    /// The text is spoiled: it is refused with this number at this line.
    Refused {
        /// The number of the refusal.
        number: u8,
        /// The line, counted from 1, or 0 where reading does not refuse.
        line: usize,
    },
    /// The text is good, and these are the lines of its listing: the node, the
    /// concept and the number of the label.
    Lists(Vec<(usize, usize, u64)>),
    /// The text is good, and so many labels are not none, memberships and
    /// links together, and so many bytes are in its listing.
    Settles {
        /// How many labels are not none.
        labels: usize,
        /// How many bytes the listing has.
        bytes: usize,
    },
    /// The text is good, and nothing more was worked by hand.
    Unworked,
}

/// A text for the program of model labels.
pub fn models(name: &'static str, bytes: Vec<u8>, expected: Expected) -> Sample {
    Sample { name, program: Program::Models, bytes, expected }
}

/// A text for the program of grade labels.
pub fn grades(name: &'static str, bytes: Vec<u8>, expected: Expected) -> Sample {
    Sample { name, program: Program::Grades, bytes, expected }
}

/// The expectation that a text is refused with this number at this line.
pub fn refused(number: u8, line: usize) -> Expected {
    Expected::Refused { number, line }
}

/// The expectation that a listing has these lines.
pub fn lists(lines: &[(usize, usize, u64)]) -> Expected {
    Expected::Lists(lines.to_vec())
}

/// The expectation that so many labels are not none, and that the listing has
/// so many bytes.
pub fn settles(labels: usize, bytes: usize) -> Expected {
    Expected::Settles { labels, bytes }
}

/// The small book that most spoiled texts are made from. All five lines are good.
const SMALL: [&str; 5] =
    ["concepts roles units", "3 2 2", "form first second role third label", "1 1 0 0 2 5", "5 0 0 0 1 3"];

/// These lines, each ended by a line feed.
pub fn lines<Line: AsRef<[u8]>>(lines: impl IntoIterator<Item = Line>) -> Vec<u8> {
    let mut bytes = Vec::new();
    for line in lines {
        bytes.extend_from_slice(line.as_ref());
        bytes.push(b'\n');
    }
    bytes
}

/// The text of a book with these sizes and sentences.
pub fn book<Line: AsRef<[u8]>>(sizes: &str, sentences: impl IntoIterator<Item = Line>) -> Vec<u8> {
    let mut bytes = lines([SMALL[0], sizes, SMALL[2]]);
    bytes.extend(lines(sentences));
    bytes
}

/// The text of a book with these sizes and no sentence.
pub fn without_sentences(sizes: &str) -> Vec<u8> {
    lines([SMALL[0], sizes, SMALL[2]])
}

/// The text of the small book.
pub fn small() -> Vec<u8> {
    lines(SMALL)
}

/// So many first lines of the small book.
pub fn small_start(count: usize) -> Vec<u8> {
    lines(&SMALL[..count])
}

/// The small book with another line in the place of this one, counted from 1.
pub fn small_with(number: usize, line: impl AsRef<[u8]>) -> Vec<u8> {
    let mut changed = SMALL.map(str::as_bytes);
    changed[number - 1] = line.as_ref();
    lines(changed)
}

/// The small book with one line more, put before this one, counted from 1.
pub fn small_with_before(number: usize, line: &str) -> Vec<u8> {
    let mut more = SMALL.to_vec();
    more.insert(number - 1, line);
    lines(more)
}

/// The bytes with others after them.
pub fn followed_by(mut bytes: Vec<u8>, end: &[u8]) -> Vec<u8> {
    bytes.extend_from_slice(end);
    bytes
}

/// The bytes with others before them.
pub fn preceded_by(start: &[u8], bytes: Vec<u8>) -> Vec<u8> {
    followed_by(start.to_vec(), &bytes)
}

/// The bytes without the last one.
pub fn without_last_byte(mut bytes: Vec<u8>) -> Vec<u8> {
    bytes.pop();
    bytes
}

/// The bytes with another one in the place of the last.
pub fn with_last_byte(bytes: Vec<u8>, last: u8) -> Vec<u8> {
    followed_by(without_last_byte(bytes), &[last])
}

/// The bytes with this in the place of every line feed.
pub fn with_line_ends(bytes: Vec<u8>, end: &str) -> Vec<u8> {
    let mut changed = Vec::new();
    for byte in bytes {
        if byte == b'\n' {
            changed.extend_from_slice(end.as_bytes());
        } else {
            changed.push(byte);
        }
    }
    changed
}

/// So many numbers that look as if they fell by chance, always the same ones
/// for the same seed.
pub struct Chance {
    /// The state from which the next number comes.
    state: u64,
}

impl Chance {
    /// Numbers from this seed.
    pub fn from_seed(seed: u64) -> Self {
        Chance { state: seed }
    }

    /// A number of 64 bits.
    pub fn next_number(&mut self) -> u64 {
        self.state = self.state.wrapping_mul(6_364_136_223_846_793_005).wrapping_add(1_442_695_040_888_963_407);
        let mixed = (self.state ^ (self.state >> 31)).wrapping_mul(0x9e37_79b9_7f4a_7c15);
        mixed ^ (mixed >> 29)
    }

    /// A number below the bound, which is not 0.
    pub fn below(&mut self, bound: usize) -> usize {
        (self.next_number() >> 16) as usize % bound
    }
}

/// The largest book of sentences of form 4: 512 concepts, 32 roles, 512 units
/// and 512 sentences, with labels that are of either kind.
pub fn largest() -> Vec<u8> {
    let sentence = |number: usize| {
        let (role, third, label) = (number % 32, 511 - number, number % 15 + 1);
        format!("4 {number} 0 {role} {third} {label}")
    };
    book("512 32 512", (0..512).map(sentence))
}

/// A largest book that takes the most rounds: unit 0 is linked to itself, and
/// the sentences stand so that each round brings it into just one concept more.
pub fn slowest() -> Vec<u8> {
    let step = |concept: usize| format!("4 {concept} 0 0 {} 15", concept + 1);
    let mut sentences: Vec<String> = (1..=510).rev().map(step).collect();
    sentences.push(String::from("6 0 0 0 0 15"));
    sentences.push(String::from("5 0 0 0 1 15"));
    book("512 32 512", sentences)
}
