//! Prints the three numbers of a text that is converted (refusal, place, bytes written) on standard error, and writes the bytes of its
//! sheet to standard output. A number behind the text is the length of the buffer.

mod caller;
mod zumbeiry_convert;

use std::process::ExitCode;
use zumbeiry_convert::{convert, MOST_BYTES};

fn main() -> ExitCode {
    caller::ended(caller::output_of("usage: convert TEXT [BYTES]", MOST_BYTES, convert))
}
