//! Prints the five numbers that new times on a statement would give: refusal, place, steps, low, high. With the word `write` behind
//! them it makes the change instead: the changed sheet goes to standard output, and to standard error refusal, place, thread,
//! statement, old times and new times. With these last six and the word `back` it takes the change back: the sheet before it goes to
//! standard output, refusal and place to standard error.

mod zumbeiry_retime;

use std::ffi::OsString;
use std::io::Write;
use std::process::ExitCode;
use zumbeiry_retime::{change, preview, take_back, Asked, Change, Changed};

const USAGE: &str = "usage: retime SHEET THREAD STATEMENT LEAST GREATEST [write]
       retime SHEET THREAD STATEMENT OLD_LEAST OLD_GREATEST NEW_LEAST NEW_GREATEST back";

fn number<T: std::str::FromStr>(digits: &OsString) -> Result<T, String> {
    let digits = digits.to_string_lossy();
    digits.parse().map_err(|_| format!("not a number, or too large: {digits}"))
}

fn read(file: &OsString) -> Result<Vec<u8>, String> {
    std::fs::read(file).map_err(|error| format!("{}: {error}", file.to_string_lossy()))
}

/// Puts the sheet out if it was written; whether it was.
fn written(refusal: u64, sheet: &[u8]) -> Result<bool, String> {
    if refusal == 0 {
        let mut out = std::io::stdout();
        out.write_all(sheet).and_then(|()| out.flush()).map_err(|error| format!("standard output: {error}"))?;
    }
    Ok(refusal == 0)
}

fn previewed(sheet: &[u8], asked: Asked) -> Result<bool, String> {
    let [refusal, place, steps, low, high] = preview(sheet, &mut vec![0; sheet.len()], &mut vec![0; 12_000], asked);
    println!("{refusal} {place} {steps} {low} {high}");
    Ok(refusal == 0)
}

fn changed(sheet: &mut [u8], asked: Asked) -> Result<bool, String> {
    let Changed { refusal, place, change } = change(sheet, asked);
    let Change { thread, statement, old_least, old_greatest, new_least, new_greatest } = change;
    eprintln!("{refusal} {place} {thread} {statement} {old_least} {old_greatest} {new_least} {new_greatest}");
    written(refusal, sheet)
}

fn taken_back(sheet: &mut [u8], change: Change) -> Result<bool, String> {
    let [refusal, place] = take_back(sheet, change);
    eprintln!("{refusal} {place}");
    written(refusal, sheet)
}

/// What the program's arguments ask for; whether nothing was refused.
fn answered() -> Result<bool, String> {
    let arguments: Vec<OsString> = std::env::args_os().skip(1).collect();
    let [file, thread, statement, least, greatest, more @ ..] = &arguments[..] else {
        return Err(USAGE.to_string());
    };
    let (thread, statement) = (number(thread)?, number(statement)?);
    let (least, greatest) = (number(least)?, number(greatest)?);
    let asked = Asked { thread, statement, least, greatest };
    match more {
        [] => previewed(&read(file)?, asked),
        [last] if last == "write" => changed(&mut read(file)?, asked),
        [new_least, new_greatest, last] if last == "back" => {
            let (old_least, old_greatest) = (least, greatest);
            let (new_least, new_greatest) = (number(new_least)?, number(new_greatest)?);
            let change = Change { thread, statement, old_least, old_greatest, new_least, new_greatest };
            taken_back(&mut read(file)?, change)
        }
        _ => Err(USAGE.to_string()),
    }
}

fn main() -> ExitCode {
    match answered() {
        Ok(accepted) => ExitCode::from(u8::from(!accepted)),
        Err(fault) => {
            eprintln!("{fault}");
            ExitCode::from(2)
        }
    }
}
