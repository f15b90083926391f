//! The program `compare`: answers as the programs `models` and `grades` must,
//! and gives out the table of texts with their answers.

use compare::programs::{INPUT_BYTES, Program};
use compare::{building, checking, texts};
use std::io::{self, Read, Write};
use std::path::Path;
use std::process::ExitCode;

/// What is said to a call that is none of those there are.
const USAGE: &str = "compare models | grades | texts DIR | expect | args | largest | slowest";

/// Does what the arguments ask. The exit status is 0, or 1 with a word on
/// standard error why.
fn main() -> ExitCode {
    let arguments: Vec<String> = std::env::args().skip(1).collect();
    let words: Vec<&str> = arguments.iter().map(String::as_str).collect();
    let done = match words.as_slice() {
        ["models"] => answer(Program::Models),
        ["grades"] => answer(Program::Grades),
        ["texts", folder] => write_texts(Path::new(folder)),
        ["expect"] => expect(),
        ["args"] => print(format!("{}\n", texts_as_arguments()).as_bytes()),
        ["largest"] => print(&building::largest()),
        ["slowest"] => print(&building::slowest()),
        _ => Err(io::Error::other(USAGE)),
    };
    match done {
        Ok(()) => ExitCode::SUCCESS,
        Err(error) => {
            eprintln!("{error}");
            ExitCode::FAILURE
        }
    }
}

/// Reads an input and prints what the program must print.
fn answer(program: Program) -> io::Result<()> {
    let mut input = Vec::new();
    let one_byte_more = INPUT_BYTES as u64 + 1;
    io::stdin().take(one_byte_more).read_to_end(&mut input)?;
    print(program.answer(&input).printed().as_bytes())
}

/// Writes every text of the table as a file into a folder.
fn write_texts(folder: &Path) -> io::Result<()> {
    std::fs::create_dir_all(folder)?;
    for sample in texts::table() {
        std::fs::write(folder.join(sample.name), &sample.bytes)?;
    }
    Ok(())
}

/// Prints what must be printed for every text of the table. It fails when an
/// answer is not as it was worked by hand.
fn expect() -> io::Result<()> {
    match checking::expectations(&texts::table()) {
        Ok(printed) => print(printed.as_bytes()),
        Err(faults) => Err(io::Error::other(faults)),
    }
}

/// The programs and the names of their texts, one to a line.
fn texts_as_arguments() -> String {
    checking::arguments(&texts::table()).join("\n")
}

/// Prints bytes to standard output.
fn print(bytes: &[u8]) -> io::Result<()> {
    let mut output = io::stdout().lock();
    output.write_all(bytes)?;
    output.flush()
}
