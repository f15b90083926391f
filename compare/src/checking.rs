//! Checking the answers of the code against the answers worked by hand.

use crate::building::{Expected, Sample};
use crate::listing;
use crate::programs::{Answer, Program};
use crate::text::Refusal;

/// Whether an answer is the expected one.
fn agrees(answer: &Answer, expected: &Expected) -> bool {
    match (expected, answer) {
        (Expected::Refused { number, line }, Answer::Refused(refusal)) => {
            *refusal == Refusal { number: *number, line: *line }
        }
        (Expected::Lists(lines), Answer::Listed { listing, .. }) => *listing == listing_of(lines),
        (Expected::Settles { labels, bytes }, Answer::Listed { labels: held, listing }) => {
            labels == held && *bytes == listing.len()
        }
        (Expected::Unworked, Answer::Listed { .. }) => true,
        _ => false,
    }
}

/// The listing that has these lines.
fn listing_of(lines: &[(usize, usize, u64)]) -> String {
    let mut text = String::from(listing::HEADER);
    for (node, concept, number) in lines {
        text.push_str(&listing::line(*node, *concept, *number));
    }
    text
}

/// The samples of one program, in the order of the table.
pub fn of_program(samples: &[Sample], program: Program) -> impl Iterator<Item = &Sample> {
    samples.iter().filter(move |sample| sample.program == program)
}

/// For every sample its name and what its program must print, those for models
/// first; or one line for every sample whose answer is not as worked by hand.
pub fn expectations(samples: &[Sample]) -> Result<String, String> {
    let mut printed = String::new();
    let mut faults = String::new();
    for program in [Program::Models, Program::Grades] {
        for sample in of_program(samples, program) {
            let answer = program.answer(&sample.bytes);
            if !agrees(&answer, &sample.expected) {
                faults.push_str(&fault(sample, &answer));
            }
            printed.push_str(&format!("{}:\n{}", sample.name, answer.printed()));
        }
    }
    if faults.is_empty() { Ok(printed) } else { Err(faults) }
}

/// One line that says how an answer differs from the one worked by hand.
fn fault(sample: &Sample, answer: &Answer) -> String {
    let found = match answer {
        Answer::Listed { labels, listing } if listing.len() > 1_000 => {
            format!("{labels} labels and {} bytes", listing.len())
        }
        _ => format!("{answer:?}"),
    };
    format!("{}: worked by hand {:?}, found {found}\n", sample.name, sample.expected)
}

/// The words of an argument list: each program, followed by its samples' names.
pub fn arguments(samples: &[Sample]) -> Vec<&'static str> {
    let mut words = Vec::new();
    for program in [Program::Models, Program::Grades] {
        words.push(program.name());
        words.extend(of_program(samples, program).map(|sample| sample.name));
    }
    words
}

#[cfg(test)]
mod tests {
    use super::*;
    use crate::texts;
    use std::collections::BTreeSet;

    /// Every answer is as it was worked by hand.
    #[test]
    fn answers_are_as_worked_by_hand() {
        if let Err(faults) = expectations(&texts::table()) {
            panic!("{faults}");
        }
    }

    /// A wrong expectation is found out, with the name of the text.
    #[test]
    fn a_wrong_expectation_is_found_out() {
        let expected = Expected::Refused { number: 11, line: 2 };
        let sample = Sample { name: "nothing", program: Program::Models, bytes: Vec::new(), expected };
        let faults = expectations(&[sample]).expect_err("line 1 is missing");
        assert!(faults.starts_with("nothing: "));
    }

    /// The names are lower-case words joined by underscores, and all different.
    #[test]
    fn names_are_plain_and_different() {
        let mut seen = BTreeSet::new();
        for sample in texts::table() {
            let plain = |byte: u8| byte.is_ascii_lowercase() || byte.is_ascii_digit();
            for word in sample.name.split('_') {
                assert!(!word.is_empty() && word.bytes().all(plain), "{}", sample.name);
            }
            assert!(seen.insert(sample.name), "{} stands twice", sample.name);
        }
    }

    /// There are many texts, and most of them are spoiled.
    #[test]
    fn the_table_is_large() {
        let samples = texts::table();
        let spoiled = samples.iter().filter(|sample| matches!(sample.expected, Expected::Refused { .. }));
        assert!(samples.len() >= 85);
        assert!(spoiled.count() >= 65);
    }
}
