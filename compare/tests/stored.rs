//! The texts and answers that the verified programs are tried on are those of the table.

use compare::{checking, texts};
use std::path::PathBuf;

/// A file of the trials over texts.
fn trials(name: &str) -> PathBuf {
    PathBuf::from(env!("CARGO_MANIFEST_DIR")).join("../crates/text_trials").join(name)
}

/// What a file holds.
fn stored(name: &str) -> Vec<u8> {
    std::fs::read(trials(name)).unwrap_or_else(|error| panic!("{name}: {error}"))
}

/// Every text of the table is stored, and nothing else is.
#[test]
fn every_text_is_stored() {
    let table = texts::table();
    for sample in &table {
        assert!(stored(&format!("data/{}", sample.name)) == sample.bytes, "{} differs", sample.name);
    }
    let files = std::fs::read_dir(trials("data")).expect("the folder of the texts");
    assert_eq!(files.count(), table.len());
}

/// The argument list names every text of the table.
#[test]
fn every_text_is_an_argument() {
    let words = checking::arguments(&texts::table()).join("\n");
    assert_eq!(stored("args"), format!("{words}\n").into_bytes());
}

/// The stored answers are the expected ones.
#[test]
fn the_answers_are_the_expected_ones() {
    let expected = checking::expectations(&texts::table()).expect("as worked by hand");
    assert!(stored("stdout") == expected.into_bytes());
}
