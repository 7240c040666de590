//! Prints where the sheet with a name stands in the customer's file or else in ours: refusal, file, place, size.

mod zumbeiry_find;

use std::ffi::OsString;
use std::process::ExitCode;

fn read(file: &OsString) -> Result<Vec<u8>, String> {
    std::fs::read(file).map_err(|error| format!("{}: {error}", file.to_string_lossy()))
}

/// The name and the two files, as the program's arguments tell them.
fn given() -> Result<(u8, Vec<u8>, Vec<u8>), String> {
    let arguments: Vec<OsString> = std::env::args_os().skip(1).collect();
    let [name, his, ours] = &arguments[..] else {
        return Err("usage: find NAME HIS OURS, NAME from 0 to 255".to_string());
    };
    let name = name.to_string_lossy().parse().map_err(|error| format!("NAME: {error}"))?;
    Ok((name, read(his)?, read(ours)?))
}

fn main() -> ExitCode {
    match given() {
        Ok((name, his, ours)) => {
            let answer = zumbeiry_find::find(name, &his, &ours);
            println!("{} {} {} {}", answer.refusal, answer.file, answer.place, answer.sheet.len());
            ExitCode::from(u8::from(answer.refusal != 0))
        }
        Err(fault) => {
            eprintln!("{fault}");
            ExitCode::from(2)
        }
    }
}
