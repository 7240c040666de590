//! Prints the five numbers of a record that is followed through its sheet: refusal, file, place, finished, tick.

mod zumbeiry_follow;

use std::ffi::OsString;
use std::process::ExitCode;

fn read(file: &OsString) -> Result<Vec<u8>, String> {
    std::fs::read(file).map_err(|error| format!("{}: {error}", file.to_string_lossy()))
}

/// The two files that the program's arguments name.
fn given() -> Result<(Vec<u8>, Vec<u8>), String> {
    let arguments: Vec<OsString> = std::env::args_os().skip(1).collect();
    let [sheet, record] = &arguments[..] else {
        return Err("usage: follow SHEET RECORD".to_string());
    };
    Ok((read(sheet)?, read(record)?))
}

fn main() -> ExitCode {
    match given() {
        Ok((sheet, record)) => {
            let [refusal, file, place, finished, tick] = zumbeiry_follow::follow(&sheet, &record);
            println!("{refusal} {file} {place} {finished} {tick}");
            ExitCode::from(u8::from(refusal != 0))
        }
        Err(fault) => {
            eprintln!("{fault}");
            ExitCode::from(2)
        }
    }
}
