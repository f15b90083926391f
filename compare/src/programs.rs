//! What the two programs answer to an input.

use crate::kinds::{Grades, Kind, Models};
use crate::listing::list;
use crate::settling::settle;
use crate::text::{Refusal, read_book};

/// The most bytes an input may have.
pub const INPUT_BYTES: usize = 16_384;
/// The most bytes a listing may have.
pub const LISTING_BYTES: usize = 16_384;
/// The most sentences a book may have.
pub const SENTENCES: usize = 512;
/// The most labels that may be other than none.
pub const ENTRIES: usize = 2_048;

/// The refusal of a board that cannot hold the labels.
const BOARD_FULL: u8 = 8;
/// The refusal of an input or a listing that is too long.
const MEMORY_TOO_SHORT: u8 = 9;

/// Which of the two programs: the kind of its labels.
#[derive(Clone, Copy, Debug, PartialEq, Eq)]
pub enum Program {
    /// The program of model labels.
    Models,
    /// The program of grade labels.
    Grades,
}

impl Program {
    /// The name of the program.
    pub fn name(self) -> &'static str {
        match self {
            Program::Models => "models",
            Program::Grades => "grades",
        }
    }

    /// What the program answers to an input.
    pub fn answer(self, input: &[u8]) -> Answer {
        let answer = match self {
            Program::Models => answer_in::<Models>(input),
            Program::Grades => answer_in::<Grades>(input),
        };
        answer.unwrap_or_else(Answer::Refused)
    }
}

/// The answer to an input.
#[derive(Clone, Debug, PartialEq, Eq)]
pub enum Answer {
    /// The book is settled.
    Listed {
        /// How many labels are not none, memberships and links together.
        labels: usize,
        /// The whole listing.
        listing: String,
    },
    /// The input is refused.
    Refused(Refusal),
}

impl Answer {
    /// What is printed for the answer.
    pub fn printed(&self) -> String {
        match self {
            Answer::Listed { listing, .. } => listing.clone(),
            Answer::Refused(refusal) => {
                format!("refused {} line {}\n", refusal.number, refusal.line)
            }
        }
    }
}

/// The answer to an input in labels of one kind.
fn answer_in<K: Kind>(input: &[u8]) -> Result<Answer, Refusal> {
    if input.len() > INPUT_BYTES {
        return Err(beside_reading(MEMORY_TOO_SHORT));
    }
    let book = read_book::<K>(input, SENTENCES)?;
    let board = settle::<K>(&book, ENTRIES).ok_or(beside_reading(BOARD_FULL))?;
    let listing = list(&book.sizes, &board);
    if listing.len() > LISTING_BYTES {
        return Err(beside_reading(MEMORY_TOO_SHORT));
    }
    Ok(Answer::Listed { labels: board.held(), listing })
}

/// A refusal that does not come from reading.
fn beside_reading(number: u8) -> Refusal {
    Refusal { number, line: 0 }
}

#[cfg(test)]
mod tests {
    use super::*;

    /// The two drums: worn, slipping, noisy, due for service.
    const DRUMS: &str = "concepts roles units\n5 1 2\nform first second role third label\n\
        1 1 0 0 2 5\n2 2 3 0 4 7\n4 2 0 0 3 6\n5 0 0 0 1 3\n6 1 0 0 0 7\n5 1 0 0 2 4\n";

    /// The listing of the drums in models.
    #[test]
    fn drums_in_models() {
        let listing = "node concept label\n1 1 18446744073709551615\n1 2 5\n\
            2 2 18446744073709551615\n3 3 18446744073709551615\n4 4 18446744073709551615\n\
            5 1 3\n5 2 1\n6 2 4\n";
        assert_eq!(Program::Models.answer(DRUMS.as_bytes()).printed(), listing);
    }

    /// The listing of the drums in grades: the lowest grade on the way decides.
    #[test]
    fn drums_in_grades() {
        let listing = "node concept label\n1 1 15\n1 2 5\n2 2 15\n3 3 15\n4 4 15\n\
            5 1 3\n5 2 3\n6 2 4\n6 3 3\n6 4 3\n";
        assert_eq!(Program::Grades.answer(DRUMS.as_bytes()).printed(), listing);
    }

    /// The listing of the embosser that is loaded, embossing, ready.
    #[test]
    fn embosser_in_models() {
        let text = "concepts roles units\n4 1 1\nform first second role third label\n\
            3 1 0 0 2 7\n4 2 0 0 3 6\n5 0 0 0 1 2\n";
        let listing = "node concept label\n1 1 18446744073709551615\n1 3 6\n\
            2 2 18446744073709551615\n3 3 18446744073709551615\n4 1 2\n4 3 2\n";
        assert_eq!(Program::Models.answer(text.as_bytes()).printed(), listing);
    }

    /// A refusal is one line.
    #[test]
    fn nothing_is_refused() {
        let printed = Program::Models.answer(b"").printed();
        assert_eq!(printed, "refused 11 line 1\n");
    }
}
