//! The lines of a sheet's text in the printed form (02, ticket 4), field by field. Written from the papers. The sheet
//! reads: another gives a panic.

use crate::print_expression::{condition_text, value_text};
use crate::print_words::{digits, ends, name, signed, take, unsigned};

/// The words of a statement behind its times.
fn statement(code: u8, operands: &[u8]) -> String {
    let registers = |word: &str, between: &str| {
        format!("{word} {} {between} {}", name("r", &operands[..1]), name("x", &operands[1..]))
    };
    match code {
        1 => "skip".to_string(),
        2 => format!("{} := {}", name("r", &operands[..1]), value_text(&operands[1..])),
        3 => format!("if {} goto {}", condition_text(&operands[1..]), digits(&operands[..1])),
        4 => registers("store", "to"),
        5 => registers("load", "from"),
        6 => format!("unlock {}", name("l", operands)),
        7 => format!("lock {}", name("l", operands)),
        _ => panic!("no statement"),
    }
}

/// "`halt` has no times."
fn statement_line(body: &[u8]) -> String {
    match body[4] {
        0 => "halt".to_string(),
        code => format!("{} {}", ends(&body[..4], digits), statement(code, &body[5..])),
    }
}

/// The lines of a field. Header lines always stand, `locks 0` too.
fn lines_of(tag: u8, body: &[u8]) -> Vec<String> {
    match tag {
        1 => vec![
            format!("limit {}", digits(&body[..4])),
            format!("budget {}", digits(&body[4..8])),
            format!("label {}", ends(&body[8..], digits)),
        ],
        2 => vec![format!("var {}", ends(body, signed))],
        3 => vec![format!("locks {}", digits(body))],
        4 => vec!["thread".to_string()],
        5 => vec![format!("reg {}", ends(body, signed))],
        6 => vec![statement_line(body)],
        _ => panic!("no field"),
    }
}

/// "a newline after each line, no blank lines"
pub fn printed(sheet: &[u8]) -> Vec<u8> {
    let mut rest = sheet;
    let mut text = String::new();
    while !rest.is_empty() {
        let tag = take(&mut rest, 1)[0];
        let length = unsigned(take(&mut rest, 2)) as usize;
        for line in lines_of(tag, take(&mut rest, length)) {
            text += &line;
            text += "\n";
        }
    }
    text.into_bytes()
}
