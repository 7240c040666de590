//! Converts texts to sheets (02, ticket 2): what fitters type at the bench. Makes and reads a corpus of texts. Written
//! from the papers, it shares no code with the library it is compared with.
//!
//!     rustc --edition 2021 -O -o texts texts.rs     (rustc --edition 2021 --test for the tests)
//!
//!     texts make SEED COUNT [TEXT ..] > FILE   a corpus: the cases chosen by hand, these texts, then COUNT random ones
//!     texts plant FILE > FILE                  the same, with planted entries among them
//!     texts expected FILE                      the line that the proved converter's program prints of a corpus
//!     texts histogram FILE                     entries by refusal, pairs of faults in one entry, sizes
//!     texts list FILE                          each entry as text
//!     texts corpus FILE                        the entries that are answered otherwise
//!     texts convert TEXT [ROOM]                converts a file with ROOM bytes (16384) lent: `refusal place written`
//!                                              on standard error, the sheet on standard output
//!     texts try PROGRAM SEED COUNT             random texts through another converter, and how many it answers
//!                                              otherwise
//!
//! text_words.rs, text_expression.rs and text_lines.rs read a text, text_answer.rs has what is refused and what the
//! buffer holds; text_corpus.rs describes the corpus, text_cases.rs has the cases, text_plant.rs what is planted. The
//! other modules serve other programs too: oracle.rs reads sheets, generator.rs serves for random ones.

mod command_line;
mod corpus_commands;
#[allow(dead_code)]
mod entries;
mod expression_codes;
mod fault_pairs;
#[allow(dead_code)]
mod field;
#[allow(dead_code)]
mod generator;
#[allow(dead_code)]
mod oracle;
mod program_try;
#[allow(dead_code)]
mod retime_sheets;
#[allow(dead_code)]
mod sheet_parts;
mod text_answer;
mod text_cases;
mod text_corpus;
mod text_expression;
mod text_faults;
mod text_histogram;
mod text_lines;
mod text_numbers;
mod text_order;
mod text_phrases;
mod text_plant;
mod text_print;
mod text_random;
mod text_sizes;
mod text_spelling;
#[cfg(test)]
mod text_tests;
mod text_try;
mod text_words;
mod text_worked;

use command_line::{contents, parsed, write};
use corpus_commands::Commands;
use std::env;
use text_answer::{answered, Answered, Case, MAX_SHEET};
use text_corpus::Typed;

const NAME: &str = "texts";
const USAGE: &str = "usage: texts make SEED COUNT [TEXT ..] | plant, expected, histogram, list or corpus FILE | \
                     convert TEXT [ROOM] | try PROGRAM SEED COUNT";

const CORPUS: Commands<Typed> = Commands {
    of: "texts",
    planted: text_plant::planted,
    expected: text_corpus::expected,
    histogram: text_histogram::histogram,
    list: text_corpus::list,
};

fn convert_file(file: &str, room: usize) {
    let Answered { refusal, place, written, sheet } = answered(&Case { text: contents(file), room });
    eprintln!("{refusal} {place} {written}");
    write(&sheet[..written]);
}

fn main() {
    let arguments: Vec<String> = env::args().skip(1).collect();
    let arguments: Vec<&str> = arguments.iter().map(String::as_str).collect();
    match &arguments[..] {
        ["make", seed, count, files @ ..] => {
            let files: Vec<Vec<u8>> = files.iter().map(|file| contents(file)).collect();
            write(&text_corpus::corpus_of(text_cases::all(parsed(seed), parsed(count), &files)));
        }
        ["convert", file] => convert_file(file, MAX_SHEET),
        ["convert", file, room] => convert_file(file, parsed(room)),
        ["try", program, seed, count] => text_try::try_program(program, parsed(seed), parsed(count)),
        words => CORPUS.run(words, USAGE),
    }
}
