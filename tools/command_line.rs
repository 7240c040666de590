//! Parts of a command line: reading files and numbers, writing bytes, ending with a message. A
//! program that includes this has its `NAME` beside it.

use crate::NAME;
use std::str::FromStr;
use std::{fs, io, process};

pub fn fail(message: &str) -> ! {
    eprintln!("{NAME}: {message}");
    process::exit(2)
}

pub fn contents(file: &str) -> Vec<u8> {
    fs::read(file).unwrap_or_else(|error| fail(&format!("{file}: {error}")))
}

pub fn write(bytes: &[u8]) {
    if let Err(error) = io::Write::write_all(&mut io::stdout(), bytes) {
        fail(&error.to_string());
    }
}

pub fn parsed<T: FromStr>(text: &str) -> T {
    text.parse().unwrap_or_else(|_| fail(&format!("not a number, or too large: {text}")))
}
