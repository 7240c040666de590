//! Prints the four numbers of a sheet that is mended (refusal, place, bytes written, numbers listed), and a line of kind and offset
//! for each change. Two numbers behind the sheet are the lengths of the buffers.

mod caller;
mod zumbeiry_mend;

use caller::{arguments, contents, length};
use std::process::ExitCode;
use zumbeiry_mend::{mend, MOST_BYTES, MOST_LISTED};

/// Whether the sheet that the program's arguments name is mended.
fn mended() -> Result<bool, String> {
    let (sheet, bytes, numbers) = match &arguments()[..] {
        [file] => (contents(file)?, MOST_BYTES, MOST_LISTED),
        [file, bytes, numbers] => (contents(file)?, length(bytes)?, length(numbers)?),
        _ => return Err("usage: mend SHEET [BYTES NUMBERS]".to_string()),
    };
    let mut changes = vec![0; numbers];
    let [refusal, place, written, listed] = mend(&sheet, &mut vec![0; bytes], &mut changes);
    println!("{refusal} {place} {written} {listed}");
    for change in changes[..listed as usize].chunks(2) {
        println!("{} {}", change[0], change[1]);
    }
    Ok(refusal == 0)
}

fn main() -> ExitCode {
    caller::ended(mended())
}
