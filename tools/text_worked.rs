//! Cases that are worked by hand: rows that decide the order of refusals, and more; ticket 2's own lines; the paper's
//! sheets as texts.

use crate::entries::Cases;
use crate::retime_sheets::{every_code, full, long_times, of_the_paper, wide};
use crate::text_answer::Case;
use crate::text_cases::{headed, named, HEAD, NAMES};
use crate::text_print::plain;

/// A text, with the number and the place that it gets; 0 and 0 if it is accepted.
pub type Row = (String, u8, usize);

/// Rows that decide the order of refusals.
pub fn rows() -> Vec<Row> {
    let skips = |count| "1..1 skip\n".repeat(count);
    let open = "thread\n1..1 skip\n";
    let nine = "reg 0..0\n".repeat(9);
    let long = format!("limit 10\nbudget 100\nlabel 0..10\nlocks 256\n{}thread\nhalt\n", "var 0..0\n".repeat(1500));
    vec![
        (headed("1..1 if true goto 9\n0..0 skip\nhalt\n"), 4, 67),
        (headed("1..1 if true goto 9\n1..1 skip\n"), 7, 67),
        (headed(&(skips(65) + "halt\n")), 8, 687),
        (headed(&(skips(64) + "1..65536 skip\nhalt\n")), 4, 687),
        // four threads without a halt in the last, then a fifth: halt 5 bytes, thread 7, skip 10
        (headed(&("halt\nthread\nhalt\nthread\nhalt\n".to_string() + open + "thread\nhalt\n")), 7, 83),
        (headed(&("halt\n".to_string() + &"thread\nhalt\n".repeat(3) + "thread\n" + &nine + "halt\n")), 8, 88),
        (long, 9, 0),
        ("limit 99999999999\nbudget 0\n\n".to_string(), 20, 27),
    ]
}

/// More, each by a sentence of the ticket or by a reading of it (docs/EVIDENCE.md has the readings).
pub fn more_rows() -> Vec<Row> {
    let of = |text: &str, refusal, place| (text.to_string(), refusal, place);
    let statement =
        |line: &str, refusal, place: usize| (named(line), refusal, if refusal == 0 { 0 } else { NAMES.len() + place });
    vec![
        of("", 20, 0),
        of("limit 10\n\n", 20, 9),
        of("limit 10\n", 20, 9),
        of("label 0..10\n", 20, 1),
        of("limit10", 20, 5),
        of(&headed("halt"), 0, 0),
        of(&headed("halt\n"), 0, 0),
        of(&headed("halt\n\n"), 20, 52),
        of(&headed("halt\n "), 20, 53),
        of(HEAD, 20, 47),
        of(&headed("thread\nhalt\n"), 20, 47),
        of(&headed(&("reg 0..0\n".repeat(9) + "halt\n")), 4, 40),
        of(&HEAD.replace("0..10", "0..11"), 20, 47),
        of(&headed("halt\n").replace("0..10", "0..11"), 4, 20),
        of(&headed("1..1 skip\n"), 7, 47),
        of(&headed("1..1 if true goto 1\n"), 7, 47),
        of(&headed("1..1 if true goto 2\nhalt\n"), 5, 47),
        statement("1..1 stop", 20, 8),
        statement("1..1 if r0 = 5 goto 0", 20, 12),
        statement("1..1 if (r0) && true goto 0", 20, 13),
        statement("1..1 r0 := - r0", 20, 13),
        statement("1..1 if r0 < 5goto 0", 20, 14),
        statement("0..0 halt", 20, 5),
        statement("1..1 if true goto 256", 4, 0),
        statement("1..1 if true goto 255", 5, 0),
        statement("1..1 r0 := -2147483648", 0, 0),
        statement("1..1 r0 := - 2147483648", 0, 0),
        statement("1..1 r0 := 2147483648", 4, 0),
        statement("1..1 r0 := -2147483649", 4, 0),
        statement("1..1 r0:=r0+2*3", 0, 0),
        statement("1..1 if!(r0<5)&&true goto 0", 0, 0),
        statement("1..1 if r0 < 5 goto 0\r", 20, 21),
        statement("1..1\tskip", 20, 4),
        statement("1..1 SKIP", 20, 5),
    ]
}

/// Each line that the ticket writes out, in a text that has its names.
fn of_the_ticket() -> Vec<String> {
    let front = "limit 10\nbudget 100\nlabel 0..10\nlocks 1\nvar -1..1\nvar -1..1\nthread\nreg 0..9\n";
    let lines = [
        "2..3 r0 := r0 + 2 * 3",
        "2..3 if r0 < 5 goto 2",
        "2..3 store r0 to x1",
        "2..3 load r0 from x1",
        "2..3 lock l0",
        "2..3 unlock l0",
        "2..3 skip",
    ];
    let mut texts: Vec<String> = lines.iter().map(|line| format!("{front}{line}\n2..3 skip\nhalt\n")).collect();
    texts.push(format!("{front}{}\nhalt\n", lines.join("\n")));
    texts
}

impl Cases<Case> {
    pub fn worked(&mut self) {
        for (text, ..) in rows().into_iter().chain(more_rows()) {
            self.fit(text.as_bytes());
        }
        self.fit_all(&of_the_ticket());
        for sheet in of_the_paper().into_iter().chain([every_code(), wide(), full(), long_times()]) {
            self.fit(&plain(&sheet).expect("a sheet that reads has a text"));
        }
    }
}
