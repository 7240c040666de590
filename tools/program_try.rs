//! Random files through another program: one that reads a file on standard input and writes another on standard output,
//! or, where it refuses the first, a line with number and place on standard error. A module of texts.rs and prints.rs.

use crate::command_line::fail;
use std::io::Write;
use std::process::{Command, Stdio};

/// So many of those that differ are shown.
const SHOWN: usize = 10;

/// What is written on standard output and on standard error.
pub type Written = (Vec<u8>, Vec<u8>);

/// How a file is shown.
pub type Show = fn(&[u8]) -> String;

/// What a program must write: the first bytes of the output, or what it tells.
pub fn due(refusal: u8, place: usize, output: &[u8]) -> Written {
    match refusal {
        0 => (output.to_vec(), Vec::new()),
        _ => (Vec::new(), format!("{refusal} {place}\n").into_bytes()),
    }
}

pub fn escaped(bytes: &[u8]) -> String {
    bytes.escape_ascii().to_string()
}

fn written(program: &str, file: &[u8]) -> std::io::Result<Written> {
    let mut child =
        Command::new(program).stdin(Stdio::piped()).stdout(Stdio::piped()).stderr(Stdio::piped()).spawn()?;
    if let Some(mut input) = child.stdin.take() {
        // a program that ends before it has read all of it is judged by what it wrote
        let _ = input.write_all(file);
    }
    let output = child.wait_with_output()?;
    Ok((output.stdout, output.stderr))
}

/// Tries these files, of which the name says what they are.
pub fn compare(
    program: &str,
    name: &str,
    files: impl Iterator<Item = Vec<u8>>,
    due: fn(&[u8]) -> Written,
    [show_file, show_output]: [Show; 2],
) {
    let (mut count, mut accepted, mut differ) = (0, 0, 0);
    for file in files {
        let due = due(&file);
        let given = written(program, &file).unwrap_or_else(|error| fail(&format!("{program}: {error}")));
        count += 1;
        accepted += usize::from(due.1.is_empty());
        if given != due {
            differ += 1;
            if differ <= SHOWN {
                println!("{}", show_file(&file));
                for (name, (output, told)) in [("due", &due), ("given", &given)] {
                    println!("  {name} {} {}", show_output(output), escaped(told));
                }
            }
        }
    }
    println!("{count} {name} compared, {accepted} of them accepted, {differ} differ");
}
