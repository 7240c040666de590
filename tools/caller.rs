//! What the smallest programs that make a call share: a file that is read, the length of a buffer, and an output that is written.

use std::ffi::OsString;
use std::io::Write;
use std::process::ExitCode;

/// No buffer is made longer than this.
const MOST_LENT: usize = 1_000_000;

/// The words behind the program's name.
pub fn arguments() -> Vec<OsString> {
    std::env::args_os().skip(1).collect()
}

pub fn contents(file: &OsString) -> Result<Vec<u8>, String> {
    std::fs::read(file).map_err(|error| format!("{}: {error}", file.to_string_lossy()))
}

/// The length of a buffer that decimal digits give.
pub fn length(digits: &OsString) -> Result<usize, String> {
    let digits = digits.to_string_lossy();
    let length = digits.parse().ok().filter(|length| *length <= MOST_LENT);
    length.ok_or_else(|| format!("not a number, or more than {MOST_LENT}: {digits}"))
}

/// How the program ends: with 0 where nothing is refused, with 1 where it is, with 2 and a line where there is a fault.
pub fn ended(accepted: Result<bool, String>) -> ExitCode {
    match accepted {
        Ok(accepted) => ExitCode::from(u8::from(!accepted)),
        Err(fault) => {
            eprintln!("{fault}");
            ExitCode::from(2)
        }
    }
}

/// Makes the call on the file that the program's first argument names, with a buffer of so many bytes as the second one says, or else of
/// the most. Refusal, place and bytes written go to standard error, and those bytes to standard output.
#[allow(dead_code)]
pub fn output_of(usage: &str, most: usize, call: fn(&[u8], &mut [u8]) -> [u64; 3]) -> Result<bool, String> {
    let (given, bytes) = match &arguments()[..] {
        [file] => (contents(file)?, most),
        [file, bytes] => (contents(file)?, length(bytes)?),
        _ => return Err(usage.to_string()),
    };
    let mut output = vec![0; bytes];
    let [refusal, place, written] = call(&given, &mut output);
    eprintln!("{refusal} {place} {written}");
    let mut out = std::io::stdout();
    let put = out.write_all(&output[..written as usize]).and_then(|()| out.flush());
    put.map_err(|error| format!("standard output: {error}"))?;
    Ok(refusal == 0)
}
