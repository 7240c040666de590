//! Prints the five numbers of the sheet in the file that is named: refusal, place, steps, low, high.

mod zumbeiry;

use std::process::ExitCode;

fn main() -> ExitCode {
    let Some(file) = std::env::args_os().nth(1) else {
        eprintln!("usage: call FILE");
        return ExitCode::from(2);
    };
    let sheet = match std::fs::read(&file) {
        Ok(sheet) => sheet,
        Err(error) => {
            eprintln!("{}: {error}", file.to_string_lossy());
            return ExitCode::from(2);
        }
    };
    let [refusal, place, steps, low, high] = zumbeiry::check(&sheet, &mut vec![0; 12_000]);
    println!("{refusal} {place} {steps} {low} {high}");
    ExitCode::from(u8::from(refusal != 0))
}
