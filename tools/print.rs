//! Prints the three numbers of a sheet that is printed (refusal, place, bytes written) on standard error, and its text on standard output.
//! A number behind the sheet is the length of the buffer.

mod caller;
mod zumbeiry_print;

use std::process::ExitCode;
use zumbeiry_print::{print, MOST_BYTES};

fn main() -> ExitCode {
    caller::ended(caller::output_of("usage: print SHEET [BYTES]", MOST_BYTES, print))
}
