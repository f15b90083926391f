//! A second, plain program for books of labelled sentences: it reads the text
//! of a book, settles the book, and lists the labels, by the most direct way.
//! It also holds a table of texts, good and spoiled, with their answers.

pub mod building;
pub mod checking;
pub mod kinds;
pub mod listing;
pub mod programs;
pub mod settling;
pub mod text;
pub mod texts;
