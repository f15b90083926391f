//! The kinds of label: sets of models, and grades.

/// What a kind of label offers: its two ends, how two labels meet and join,
/// and the number of each label.
pub trait Kind {
    /// A label of this kind.
    type Label: Copy + PartialEq;
    /// The label that holds no view.
    const NONE: Self::Label;
    /// The label that holds every view.
    const ALL: Self::Label;
    /// The views that are in each of the two labels.
    fn both(one: Self::Label, other: Self::Label) -> Self::Label;
    /// The views that are in at least one of the two labels.
    fn either(one: Self::Label, other: Self::Label) -> Self::Label;
    /// The number of a label.
    fn number(label: Self::Label) -> u64;
    /// The label that has this number, if there is one.
    fn from_number(number: u64) -> Option<Self::Label>;
}

/// Labels that are sets of 64 models: model v is held when bit v is 1.
pub struct Models;

impl Kind for Models {
    type Label = u64;
    const NONE: u64 = 0;
    const ALL: u64 = u64::MAX;

    fn both(one: u64, other: u64) -> u64 {
        one & other
    }

    fn either(one: u64, other: u64) -> u64 {
        one | other
    }

    fn number(label: u64) -> u64 {
        label
    }

    fn from_number(number: u64) -> Option<u64> {
        Some(number)
    }
}

/// Labels that are grades from 0 to 15: view v is held when the grade exceeds v.
pub struct Grades;

/// The highest grade.
const HIGHEST_GRADE: u8 = 15;

impl Kind for Grades {
    type Label = u8;
    const NONE: u8 = 0;
    const ALL: u8 = HIGHEST_GRADE;

    fn both(one: u8, other: u8) -> u8 {
        one.min(other)
    }

    fn either(one: u8, other: u8) -> u8 {
        one.max(other)
    }

    fn number(label: u8) -> u64 {
        u64::from(label)
    }

    fn from_number(number: u64) -> Option<u8> {
        u8::try_from(number).ok().filter(|grade| *grade <= HIGHEST_GRADE)
    }
}

#[cfg(test)]
mod tests {
    use super::*;

    /// Models meet and join bit by bit.
    #[test]
    fn models_meet_and_join() {
        assert_eq!(Models::both(5, 6), 4);
        assert_eq!(Models::either(5, 6), 7);
        assert_eq!(Models::from_number(u64::MAX), Some(u64::MAX));
    }

    /// Grades meet in the lower and join in the higher one, and end at 15.
    #[test]
    fn grades_meet_and_join() {
        assert_eq!(Grades::both(5, 6), 5);
        assert_eq!(Grades::either(5, 6), 6);
        assert_eq!(Grades::from_number(15), Some(15));
        assert_eq!(Grades::from_number(16), None);
        assert_eq!(Grades::from_number(256), None);
        assert_eq!(Grades::from_number(u64::MAX), None);
    }
}
