//! Tests of the conversion: rows and bytes worked by hand, and what holds of random texts.

use crate::entries::{self, Entry};
use crate::generator::Generator;
use crate::oracle::fields_refused;
use crate::retime_sheets::{b, of_the_paper};
use crate::text_answer::{answered, Answered, Case, MAX_SHEET};
use crate::text_cases::{self, headed, named, HEAD, NAMES};
use crate::text_corpus::{corpus_of, Typed};
use crate::text_print::plain;
use crate::text_random::text;
use crate::text_sizes::of_bytes;
use crate::text_worked::{more_rows, rows};
use std::collections::BTreeSet;

fn convert(text: &[u8]) -> Answered {
    answered(&Case { text: text.to_vec(), room: MAX_SHEET })
}

/// Number and place; the buffer goes with them.
fn told(text: &str) -> (u8, usize) {
    let Answered { refusal, place, written, sheet } = convert(text.as_bytes());
    assert_eq!(refusal == 0, written > 0);
    assert!(sheet[written..].iter().all(|&byte| byte == 0));
    (refusal, place)
}

/// Of a line behind `NAMES`: what is told, the place counted in the line.
fn line(line: &str) -> (u8, usize) {
    let (refusal, place) = told(&named(line));
    (refusal, place.saturating_sub(NAMES.len()))
}

/// The bytes of the expression in a statement: 49 of what `NAMES` says, 3 of the header, 5 of times and code and 1 of
/// the register or the target stand before it, 8 of the halt behind it.
fn expression(line: &str) -> Vec<u8> {
    assert_eq!(told(&named(line)), (0, 0), "{line}");
    let Answered { written, sheet, .. } = convert(named(line).as_bytes());
    sheet[58..written - 8].to_vec()
}

fn value(value: &str) -> Vec<u8> {
    expression(&format!("1..1 r0 := {value}"))
}

fn condition(condition: &str) -> Vec<u8> {
    expression(&format!("1..1 if {condition} goto 1"))
}

/// A constant of one byte.
fn small(value: u8) -> [u8; 5] {
    [16, 0, 0, 0, value]
}

#[test]
fn worked_rows() {
    for (text, refusal, place) in rows().into_iter().chain(more_rows()) {
        assert_eq!(told(&text), (refusal, place), "{text}");
    }
}

#[test]
fn sheet_b() {
    let text = b"limit 10\nbudget 100\nlabel 2..3\nlocks 0\nthread\n2..3 skip\nhalt\n";
    let lent = |room| answered(&Case { text: text.to_vec(), room });
    let Answered { refusal, place, written, sheet } = lent(45);
    assert_eq!((refusal, place, written), (0, 0, 43));
    assert_eq!(sheet, [&b()[..], &[0, 0]].concat());
    assert_eq!(lent(43).sheet, b());
    let short = lent(42);
    assert_eq!((short.refusal, short.place, short.written, short.sheet), (19, 0, 0, vec![0; 42]));
}

#[test]
fn operators_bind() {
    let [one, two, three, four] = [1, 2, 3, 4].map(small);
    assert_eq!(value("r0 + 2 * 3"), [&[18, 17, 0, 20][..], &two, &three].concat());
    assert_eq!(value("1 - 2 - 3"), [&[19, 19][..], &one, &two, &three].concat());
    assert_eq!(value("1 - (2 - 3)"), [&[19][..], &one, &[19], &two, &three].concat());
    assert_eq!(value("1 / 2 * 3"), [&[20, 21][..], &one, &two, &three].concat());
    assert_eq!(value("1 * 2 + 3 / 4"), [&[18, 20][..], &one, &two, &[21], &three, &four].concat());
    assert_eq!(value("(1 + 2) * 3"), [&[20, 18][..], &one, &two, &three].concat());
    assert_eq!(value("((((r0))))"), [17, 0]);
    assert_eq!(value("1--1"), [&[19][..], &one, &[16, 255, 255, 255, 255]].concat());
    assert_eq!(value("- 2147483648"), [16, 128, 0, 0, 0]);
    assert_eq!((value("-0"), value("0007")), (small(0).to_vec(), small(7).to_vec()));
}

#[test]
fn conditions_bind() {
    let less = [&[37, 17, 0][..], &small(1)].concat();
    assert_eq!(condition("r0 < 1"), less);
    assert_eq!(condition("((r0)) < (1)"), less);
    assert_eq!(condition("(((r0) < 1))"), less);
    assert_eq!(condition("r0 == 1"), [&[36, 17, 0][..], &small(1)].concat());
    assert_eq!(condition("!r0 < 1"), [&[34], &less[..]].concat());
    assert_eq!(condition("! !(r0) < 1 && true"), [&[35, 34, 34], &less[..], &[32]].concat());
    assert_eq!(condition("!(r0 < 1 && true)"), [&[34, 35], &less[..], &[32]].concat());
    assert_eq!(condition("true && false && !true"), [35, 35, 32, 33, 34, 32]);
    assert_eq!(condition("true && (false && true)"), [35, 32, 35, 33, 32]);
    assert_eq!(condition("(r0 + 1) * 2 < 1"), [&[37, 20, 18, 17, 0][..], &small(1), &small(2), &small(1)].concat());
}

#[test]
fn where_it_stops() {
    for (text, place) in [
        ("1..1 if (r0 < 1) < 1 goto 0", 17),
        ("1..1 if (true) + 1 < 1 goto 0", 15),
        ("1..1 if ((r0) && true) goto 0", 14),
        ("1..1 if r0 < 1 < 1 goto 0", 15),
        ("1..1 if r0 < (true) goto 0", 14),
        ("1..1 if true == true goto 0", 13),
        ("1..1 if (r0 goto 0", 12),
        ("1..1 if r0 < 1) goto 0", 14),
        ("1..1 if truegoto 0", 12),
        ("1..1 iftrue goto 0", 7),
        ("1..1 if true goto0", 17),
        ("1..1 if true & true goto 0", 14),
        ("1..1 r 0 := 1", 6),
        ("1..1 r0 : = 1", 9),
        ("1..1 r0 := 1 2", 13),
        ("1..1 r0 := -(1)", 12),
        ("1..1 r0 := ()", 12),
        ("1. .1 skip", 2),
        ("1...1 skip", 3),
        ("-1..1 skip", 0),
        ("1..1skip", 4),
        ("1..1 skipp", 9),
        ("1..1 sto", 8),
        ("1..1 lockl0", 9),
        ("1..1 lock x0", 10),
        ("1..1 locks 0", 9),
        ("1..1 load r0 to x0", 13),
        ("1..1 store r0to x0", 13),
        ("var 0..0", 0),
        ("Halt", 0),
    ] {
        assert_eq!(line(text), (20, place), "{text}");
    }
    assert_eq!((line("reg 0..0"), line("1..1 skip\nreg 0..0")), ((0, 0), (20, 10)));
    let deep = |count: usize| line(&format!("1..1 r0 := {}1{}", "(".repeat(count), ")".repeat(count)));
    assert_eq!((deep(32), deep(33)), ((0, 0), (20, 43)));
}

#[test]
fn first_in_its_line() {
    for (text, number) in [
        ("1..1 r9 := 2147483648", 4),
        ("1..1 r9 := 2147483647", 5),
        ("0..1 lock l9", 4),
        ("1..1 if r9 < 0 goto 256", 4),
        ("1..1 r0 := 1-1-1-1-1-1-1-1-1-1-1-1-1", 6),
        ("1..1 r0 := 1-1-1-1-1-1-1-1-1-1-1-1-2147483648", 4),
        ("1..1 lock l256", 4),
        ("1..1 lock l1", 5),
        ("65536..65536 skip", 4),
    ] {
        assert_eq!(line(text), (number, 0), "{text}");
    }
    let ninth = |last: &str| HEAD.replace("thread\n", &("var 0..0\n".repeat(8) + last + "\nthread\nhalt\n"));
    assert_eq!(told(&ninth("var 0..0")), (8, 112));
    assert_eq!(told(&ninth("var 0..4294967296")), (4, 112));
    for count in [9, 256, 264, 300] {
        assert_eq!(told(&headed(&("reg 0..0\n".repeat(count) + "halt"))), (4, 40));
    }
}

#[test]
fn lengths() {
    let text = |more| String::from_utf8(plain(&of_bytes(more)).unwrap()).unwrap();
    assert_eq!((of_bytes(0).len(), of_bytes(1).len()), (16_384, 16_385));
    assert_eq!((told(&text(0)), told(&text(1))), ((0, 0), (9, 0)));
    let big = |more| text(more).replacen("1..1", "1..65536", 1);
    assert_eq!((told(&big(0)).0, told(&big(1))), (4, (9, 0)));
    let unreadable = |more| text(more) + "\n";
    assert_eq!((told(&unreadable(0)).0, told(&unreadable(1)).0), (20, 20));
}

/// "a sheet it writes is always one the reader reads", and the text of a sheet gives that sheet.
#[test]
fn texts_of_sheets() {
    for sheet in of_the_paper() {
        assert_eq!(convert(&plain(&sheet).unwrap()).sheet[..sheet.len()], sheet);
    }
    let mut generator = Generator::new(5);
    for _ in 0..20_000 {
        let sheet = generator.entry().sheet;
        if sheet.len() < 2000 && fields_refused(&sheet).is_none() {
            let text = generator.random.printed(&sheet).unwrap();
            let Answered { refusal, written, sheet: converted, .. } = convert(&text);
            assert_eq!((refusal, &converted[..written]), (0, &sheet[..]), "{}", text.escape_ascii());
        }
    }
}

/// Up to the place of a 20 each part of a text stops at its own end or can be read; and what stands behind that place
/// plays no part.
#[test]
fn parts_of_texts() {
    let mut generator = Generator::new(9);
    for _ in 0..2000 {
        let text = text(&mut generator, 300);
        let text = generator.random.damaged(text);
        let Answered { refusal, place, .. } = convert(&text);
        let place = if refusal == 20 { place } else { text.len() };
        for end in 0..=place {
            let part = convert(&text[..end]);
            assert!(part.refusal != 20 || part.place == end, "{}", text.escape_ascii());
        }
        if refusal == 20 && place < text.len() {
            let part = convert(&[&text[..=place], b"halt\n"].concat());
            assert_eq!((part.refusal, part.place), (20, place));
        }
    }
}

#[test]
fn entries_of_the_corpus() {
    let cases = text_cases::all(3, 200, &[b"limit 1\n\nbudget 1 # one\n".to_vec()]);
    assert_eq!(cases.iter().collect::<BTreeSet<_>>().len(), cases.len());
    let bytes = corpus_of(cases.clone());
    let read: Vec<Typed> = entries::read(&bytes).unwrap();
    assert_eq!(entries::corpus(read.iter().map(Entry::bytes).collect()), bytes);
    assert!(read.iter().zip(&cases).all(|(entry, case)| entry.case == *case && entry.is_answered()));
}
