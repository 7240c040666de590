//! Prints sheets as texts, one form for each (02, ticket 4). Makes and reads a corpus of printed sheets. Written from
//! the papers, it shares no code with the library it is compared with.
//!
//!     rustc --edition 2021 -O -o prints prints.rs     (rustc --edition 2021 --test for the tests)
//!
//!     prints make SEED COUNT [SHEET ..] > FILE   a corpus: the cases chosen by hand, these sheets, then COUNT random
//!                                                ones
//!     prints plant FILE > FILE                   the same, with planted entries among them
//!     prints expected FILE                       the line that the proved printer's program prints of a corpus
//!     prints histogram FILE                      entries by refusal, what stands in what, sizes
//!     prints list FILE                           each entry as text
//!     prints corpus FILE                         the entries that are answered otherwise
//!     prints print SHEET [ROOM]                  prints a file with ROOM bytes (98304) lent: `refusal place written`
//!                                                on standard error, the text on standard output
//!     prints try PROGRAM SEED COUNT              random sheets through another printer, and how many it answers
//!                                                otherwise
//!
//! print_words.rs, print_expression.rs and print_lines.rs have the printed form, print_answer.rs what is refused and what
//! the buffer holds; print_corpus.rs describes the corpus, print_cases.rs has the cases. The other modules serve other
//! programs too: oracle.rs reads sheets, generator.rs serves for random ones, those of texts.rs convert texts back.

mod command_line;
mod corpus_commands;
mod entries;
mod expression_codes;
#[allow(dead_code)]
mod field;
#[allow(dead_code)]
mod generator;
#[allow(dead_code)]
mod mend_garbled;
#[allow(dead_code)]
mod oracle;
mod print_answer;
mod print_cases;
mod print_corpus;
mod print_expression;
mod print_histogram;
mod print_lines;
mod print_numbers;
mod print_phrases;
mod print_random;
mod print_sizes;
#[cfg(test)]
mod print_tests;
mod print_try;
mod print_words;
mod program_try;
#[allow(dead_code)]
mod retime_sheets;
mod sheet_damage;
#[allow(dead_code)]
mod sheet_parts;
mod sheet_reads;
#[cfg(test)]
mod text_answer;
#[cfg(test)]
mod text_expression;
#[cfg(test)]
mod text_lines;
#[cfg(test)]
mod text_print;
#[cfg(test)]
mod text_words;

use command_line::{contents, parsed, write};
use corpus_commands::Commands;
use field::Fault;
use print_answer::{answered, Answered, Case};
use print_corpus::Print;
use std::env;

const NAME: &str = "prints";
const USAGE: &str = "usage: prints make SEED COUNT [SHEET ..] | plant, expected, histogram, list or corpus FILE | \
                     print SHEET [ROOM] | try PROGRAM SEED COUNT";
/// Bytes that are lent, unless others are given.
const ROOM: usize = 98_304;

const CORPUS: Commands<Print> = Commands {
    of: "printed sheets",
    planted: entries::planted,
    expected: print_corpus::expected,
    histogram: print_histogram::histogram,
    list: print_corpus::list,
};

fn print_file(file: &str, room: usize) {
    let Answered { told: Fault { refusal, place }, written, text } = answered(&Case { sheet: contents(file), room });
    eprintln!("{refusal} {place} {written}");
    write(&text[..written]);
}

fn main() {
    let arguments: Vec<String> = env::args().skip(1).collect();
    let arguments: Vec<&str> = arguments.iter().map(String::as_str).collect();
    match &arguments[..] {
        ["make", seed, count, files @ ..] => {
            let files: Vec<Vec<u8>> = files.iter().map(|file| contents(file)).collect();
            write(&print_corpus::corpus_of(print_cases::all(parsed(seed), parsed(count), &files)));
        }
        ["print", file] => print_file(file, ROOM),
        ["print", file, room] => print_file(file, parsed(room)),
        ["try", program, seed, count] => print_try::try_program(program, parsed(seed), parsed(count)),
        words => CORPUS.run(words, USAGE),
    }
}
