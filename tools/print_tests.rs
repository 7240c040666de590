//! Tests of the printer: texts worked by hand, and what holds of random sheets: the text converts back, no pair of
//! parentheses can be left out, and the words are those of another way to write the sheet.

use crate::entries::{self, Entry};
use crate::field::Fault;
use crate::generator::Generator;
use crate::oracle::fields_refused;
use crate::print_answer::{answered, needed, Answered, Case};
use crate::print_cases::{self, of_statements, of_the_ticket};
use crate::print_corpus::{corpus_of, Print};
use crate::print_lines::printed;
use crate::print_sizes::{widest, MAX_SHEET};
use crate::retime_sheets::{b, of_the_paper, too_long};
use crate::sheet_parts::*;
use crate::text_answer;
use crate::text_print::plain;
use std::collections::BTreeSet;

fn told(sheet: &[u8], room: usize) -> (u8, usize, usize) {
    let Answered { told: Fault { refusal, place }, written, text } = answered(&Case { sheet: sheet.to_vec(), room });
    assert_eq!(text.len(), room);
    assert!(text[written..].iter().all(|&byte| byte == 0));
    (refusal, place, written)
}

/// The sheet that a text converts to, by the separately written converter.
fn back(text: &[u8]) -> Option<Vec<u8>> {
    let text_answer::Answered { refusal, written, sheet, .. } =
        text_answer::answered(&text_answer::Case { text: text.to_vec(), room: MAX_SHEET });
    (refusal == 0).then(|| sheet[..written].to_vec())
}

/// The only line of a statement.
fn line(statement: Vec<u8>) -> String {
    let text = printed(&of_statements(&[statement]));
    String::from_utf8(text).unwrap().lines().nth(8).unwrap().to_string()
}

fn value(value: Vec<u8>) -> String {
    line(assign((1, 1), 0, &value)).strip_prefix("1..1 r0 := ").unwrap().to_string()
}

fn asked(condition: Vec<u8>) -> String {
    let line = line(jump((1, 1), 0, &condition));
    line.strip_prefix("1..1 if ").unwrap().strip_suffix(" goto 0").unwrap().to_string()
}

#[test]
fn sheet_b() {
    let text = b"limit 10\nbudget 100\nlabel 2..3\nlocks 0\nthread\n2..3 skip\nhalt\n";
    assert_eq!(text.len(), 61);
    let lent = |room| answered(&Case { sheet: b(), room });
    let Answered { told: Fault { refusal, place }, written, text: output } = lent(63);
    assert_eq!((refusal, place, written), (0, 0, 61));
    assert_eq!(output, [&text[..], &[0, 0]].concat());
    assert_eq!(lent(61).text, text);
    for room in [60, 1, 0] {
        assert_eq!(told(&b(), room), (19, 0, 0));
        assert_eq!(lent(room).text, vec![0; room]);
    }
}

#[test]
fn lines_of_the_ticket() {
    let lines = [
        "limit 10",
        "budget 100",
        "label 0..10",
        "locks 1",
        "var -1..1",
        "var 0..0",
        "thread",
        "reg 0..9",
        "2..3 r0 := r0 + 2 * 3",
        "1..1 if r0 < 5 goto 2",
        "1..2 store r0 to x1",
        "1..2 load r0 from x1",
        "1..1 lock l0",
        "1..1 unlock l0",
        "1..4 skip",
        "halt",
    ];
    assert_eq!(String::from_utf8(printed(&of_the_ticket())).unwrap(), lines.join("\n") + "\n");
}

#[test]
fn operators() {
    let [one, two, three] = [1, 2, 3].map(constant);
    let pair = |code, left: &Vec<u8>, right: &Vec<u8>| both(code, left.clone(), right.clone());
    for (outer, inner, left, right) in [
        (18, 18, "1 + 2 + 3", "1 + (2 + 3)"),
        (18, 19, "1 - 2 + 3", "1 + (2 - 3)"),
        (19, 18, "1 + 2 - 3", "1 - (2 + 3)"),
        (19, 19, "1 - 2 - 3", "1 - (2 - 3)"),
        (18, 20, "1 * 2 + 3", "1 + 2 * 3"),
        (19, 21, "1 / 2 - 3", "1 - 2 / 3"),
        (20, 18, "(1 + 2) * 3", "1 * (2 + 3)"),
        (21, 19, "(1 - 2) / 3", "1 / (2 - 3)"),
        (20, 20, "1 * 2 * 3", "1 * (2 * 3)"),
        (20, 21, "1 / 2 * 3", "1 * (2 / 3)"),
        (21, 20, "1 * 2 / 3", "1 / (2 * 3)"),
        (21, 21, "1 / 2 / 3", "1 / (2 / 3)"),
    ] {
        assert_eq!(value(pair(outer, &pair(inner, &one, &two), &three)), left);
        assert_eq!(value(pair(outer, &one, &pair(inner, &two, &three))), right);
    }
    assert_eq!(value(both(19, register(0), constant(-5))), "r0 - -5");
    assert_eq!(value(both(20, constant(-5), both(18, constant(-1), register(1)))), "-5 * (-1 + r1)");
    assert_eq!(value(constant(i32::MIN)), "-2147483648");
    assert_eq!(value(both(18, constant(i32::MIN), constant(i32::MAX))), "-2147483648 + 2147483647");
}

#[test]
fn conditions() {
    let (a, b, c) = (below(0, 5), vec![32], both(36, register(1), constant(-1)));
    let and = |left: &Vec<u8>, right: &Vec<u8>| both(35, left.clone(), right.clone());
    for (condition, text) in [
        (not(a.clone()), "!r0 < 5"),
        (not(not(b.clone())), "!!true"),
        (not(not(a.clone())), "!!r0 < 5"),
        (and(&a, &not(c.clone())), "r0 < 5 && !r1 == -1"),
        (not(and(&a, &b)), "!(r0 < 5 && true)"),
        (not(not(and(&a, &b))), "!!(r0 < 5 && true)"),
        (and(&and(&a, &b), &c), "r0 < 5 && true && r1 == -1"),
        (and(&a, &and(&b, &c)), "r0 < 5 && (true && r1 == -1)"),
        (and(&not(and(&b, &b)), &and(&b, &not(and(&b, &b)))), "!(true && true) && (true && !(true && true))"),
        (both(37, both(18, register(0), constant(1)), both(20, constant(2), register(1))), "r0 + 1 < 2 * r1"),
        (not(both(36, both(20, both(18, register(0), constant(1)), constant(2)), constant(3))), "!(r0 + 1) * 2 == 3"),
    ] {
        assert_eq!(asked(condition), text);
    }
}

#[test]
fn refused() {
    let good = b();
    for room in [0, 100] {
        assert_eq!(told(&good[..42], room), (1, 35, 0));
        assert_eq!(told(&good[..35], room), (7, 27, 0));
        assert_eq!(told(&good[..27], room), (1, 27, 0));
        assert_eq!(told(&[], room), (1, 0, 0));
        assert_eq!(told(&too_long(), room), (9, 0, 0));
    }
    assert_eq!(widest().len(), MAX_SHEET);
    assert_eq!(told(&widest(), 98_304), (0, 0, needed(&widest())));
}

/// Where the parenthesis that opens here closes.
fn closing(text: &[u8], open: usize) -> usize {
    let mut depth = 0;
    for (at, byte) in text.iter().enumerate().skip(open) {
        depth += i32::from(*byte == b'(') - i32::from(*byte == b')');
        if depth == 0 {
            return at;
        }
    }
    panic!("it does not close")
}

/// "parentheses only where the tree would otherwise change"
fn needs_each_parenthesis(sheet: &[u8], text: &[u8]) {
    for open in (0..text.len()).filter(|&at| text[at] == b'(') {
        let close = closing(text, open);
        let bare = [&text[..open], b" ", &text[open + 1..close], b" ", &text[close + 1..]].concat();
        assert!(back(&bare).is_none_or(|other| other != sheet), "{}", text.escape_ascii());
    }
}

/// The text without its spaces.
fn words(text: &[u8]) -> Vec<u8> {
    text.iter().copied().filter(|&byte| byte != b' ').collect()
}

/// "single spaces (none after `!`, `(` or a constant's minus, before `)` or round `..`)": nowhere two, and a space before
/// and behind each other word.
fn is_spaced(text: &[u8]) {
    for pair in text.windows(2) {
        let (first, second) = (char::from(pair[0]), char::from(pair[1]));
        let of_word = |byte: char| byte.is_ascii_alphanumeric();
        let fine = match (first, second) {
            (' ', _) => of_word(second) || "(!-+*/<=:&".contains(second),
            (_, ' ') => of_word(first) || ")-+*/<=&".contains(first),
            ('\n', _) | (_, '\n') => true,
            ('!' | '(', _) => of_word(second) || "(!-".contains(second),
            (_, ')') => of_word(first) || first == ')',
            ('.', _) => second == '.' || of_word(second) || second == '-',
            (_, '.') => of_word(first),
            ('-', _) | ('=', '=') | (':', '=') | ('&', '&') => true,
            _ => of_word(first) && of_word(second),
        };
        assert!(fine, "{first:?} {second:?} in {}", text.escape_ascii());
    }
}

#[test]
fn random_sheets() {
    let mut generator = Generator::new(5);
    let cases = print_cases::all(4, 6000, &[]);
    let random = (0..20_000).map(|_| generator.entry().sheet);
    for sheet in cases.into_iter().map(|case| case.sheet).chain(random).chain(of_the_paper()) {
        if sheet.len() > 3000 || fields_refused(&sheet).is_some() {
            continue;
        }
        let text = printed(&sheet);
        assert_eq!(back(&text).unwrap(), sheet, "{}", text.escape_ascii());
        assert_eq!(words(&text), words(&plain(&sheet).unwrap()));
        needs_each_parenthesis(&sheet, &text);
        is_spaced(&text);
    }
    assert_eq!(back(&printed(&widest())).unwrap(), widest());
}

#[test]
fn entries_of_the_corpus() {
    let cases = print_cases::all(3, 200, &[b(), vec![1, 2]]);
    assert_eq!(cases.iter().collect::<BTreeSet<_>>().len(), cases.len());
    let bytes = corpus_of(cases.clone());
    let read: Vec<Print> = entries::read(&bytes).unwrap();
    assert_eq!(entries::corpus(read.iter().map(Entry::bytes).collect()), bytes);
    assert!(read.iter().zip(&cases).all(|(entry, case)| entry.case == *case && entry.is_answered()));
}
