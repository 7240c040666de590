//! Makes and reads a corpus of chains: changes of times, changes taken back (02, tickets 7 and 8), and bytes
//! that someone else writes between them. Written from the papers, it shares no code with the library it
//! is compared with.
//!
//!     rustc --edition 2021 -O -o chains chains.rs     (rustc --edition 2021 --test for the tests)
//!
//!     chains make SEED COUNT > FILE      a corpus: the chains chosen by hand, then COUNT random ones
//!     chains plant FILE > FILE           the same, with planted entries among them
//!     chains histogram FILE              steps by kind and refusal, pairs of faults in one step, sizes
//!     chains list FILE                   each entry as text: the sheet, then its steps
//!     chains corpus FILE                 the entries that are answered otherwise
//!
//! retime_change.rs has the change, retime_back.rs the taking back (retimes.rs makes them on a file);
//! chain_corpus.rs describes the corpus, chain_cases.rs has the cases, chain_plant.rs what is planted. The
//! other modules serve other programs too.

mod chain_cases;
mod chain_corpus;
mod chain_histogram;
mod chain_never;
mod chain_orders;
mod chain_plant;
mod chain_random;
mod chain_sheets;
mod chain_steps;
#[cfg(test)]
mod chain_tests;
mod chain_written;
mod command_line;
#[allow(dead_code)]
mod entries;
mod fault_pairs;
#[allow(dead_code)]
mod field;
#[allow(dead_code)]
mod generator;
#[allow(dead_code)]
mod oracle;
#[allow(dead_code)]
mod retime_asked;
mod retime_back;
#[allow(dead_code)]
mod retime_change;
#[allow(dead_code)]
mod retime_sheets;
#[allow(dead_code)]
mod sheet_parts;
mod sheet_reads;

use chain_corpus::Chain;
use command_line::{contents, fail, parsed, write};
use std::env;

const NAME: &str = "chains";

fn read(file: &str) -> Vec<Chain> {
    entries::read(&contents(file)).unwrap_or_else(|| fail(&format!("{file}: not a corpus of chains")))
}

fn main() {
    let arguments: Vec<String> = env::args().skip(1).collect();
    let arguments: Vec<&str> = arguments.iter().map(String::as_str).collect();
    match arguments[..] {
        ["make", seed, count] => write(&chain_corpus::corpus_of(chain_cases::all(parsed(seed), parsed(count)))),
        ["plant", file] => {
            write(&chain_plant::planted(&read(file)).unwrap_or_else(|| fail("too few entries to plant among")));
        }
        ["histogram", file] => chain_histogram::histogram(&read(file)),
        ["list", file] => chain_corpus::list(&read(file)),
        ["corpus", file] => entries::compare(&read(file)),
        _ => fail("usage: chains make SEED COUNT | plant, histogram, list or corpus FILE"),
    }
}
