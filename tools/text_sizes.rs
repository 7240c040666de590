//! Cases of lengths: buffers that are just long enough, too short or long, sheets of about 16,384 bytes, texts with
//! very many lines or operands.

use crate::entries::Cases;
use crate::retime_sheets::{a, b, c, d, every_code, f, WIDE};
use crate::sheet_parts::*;
use crate::text_answer::{Case, MAX_SHEET};
use crate::text_cases::{headed, needed, HEAD, NAMES};
use crate::text_print::plain;

/// A sum of so many ones, in one statement.
fn sum(count: usize) -> String {
    format!("1..1 r0 := {}\n", vec!["1"; count].join("+"))
}

/// A sum of 2^depth ones.
fn tree(depth: u8) -> Vec<u8> {
    match depth {
        0 => constant(1),
        _ => both(18, tree(depth - 1), tree(depth - 1)),
    }
}

/// A sheet that would read but for its length, of 16,384 bytes and so many more: 38 before the statements; sums of
/// 12,296, 3080 and 776; 21 skips of 8, or locks for some, of 9; 2 locks; the halt of 8.
pub fn of_bytes(more: usize) -> Vec<u8> {
    let sums = [11, 9, 7].map(|depth| assign((1, 1), 0, &tree(depth)));
    let statements = [&sums[..], &vec![skip((1, 1)); 21 - more], &vec![lock((1, 1), 0); 2 + more]].concat();
    sheet_of(WIDE, 1, &[], &[thread(&[(0, 0)], &statements)])
}

fn text_of(sheet: &[u8]) -> Vec<u8> {
    plain(sheet).expect("a sheet that reads has a text")
}

/// A text with other words for some, where they stand first.
fn replaced(text: &[u8], old: &str, new: &str) -> Vec<u8> {
    String::from_utf8_lossy(text).replacen(old, new, 1).into_bytes()
}

impl Cases<Case> {
    pub fn sizes(&mut self) {
        self.rooms();
        self.counts();
        self.long_sheets();
        self.unread_long_sheets();
    }

    fn rooms(&mut self) {
        let sheets = [a(), b(), c(), d(), f(), every_code()];
        for text in sheets.iter().map(|sheet| text_of(sheet)) {
            let bytes = needed(&text);
            for room in [0, 1, 2, bytes / 2, bytes - 8, bytes - 2, bytes - 1, bytes, bytes + 1, bytes + 2, bytes + 100]
            {
                self.add(&text, room);
            }
            // each number that comes before 19
            for (old, new) in
                [("thread", "thred"), ("label 0", "label 9999"), ("halt", "1..1 skip"), ("halt", "1..1 lock l9")]
            {
                for room in [0, bytes - 1, bytes + 1] {
                    self.add(&replaced(&text, old, new), room);
                }
            }
        }
        self.add(&text_of(&b()), 20_000);
        self.add(b"limit", 20_000);
        self.add(&text_of(&b()), MAX_SHEET);
        self.add(headed("1..1 skip\n").as_bytes(), 2000);
    }

    /// Registers, variables, threads and statements about the most that there may be, and far more.
    fn counts(&mut self) {
        for count in [7, 8, 9, 10, 254, 255, 256, 257, 263, 264, 265, 300, 512] {
            let registers = "reg 0..0\n".repeat(count);
            self.fit(headed(&(registers.clone() + "halt\n")).as_bytes());
            self.fit(headed(&("halt\nthread\n".to_string() + &registers + "1..1 r0 := 1\nhalt\n")).as_bytes());
        }
        for count in [7, 8, 9, 10, 256, 264] {
            self.fit(HEAD.replace("thread\n", &("var 0..0\n".repeat(count) + "thread\nhalt")).as_bytes());
        }
        for count in [2, 3, 4, 5, 6, 256, 260] {
            self.fit(headed(&("halt\nthread\n".repeat(count - 1) + "halt")).as_bytes());
        }
        for count in [62, 63, 64, 65, 255, 256, 300] {
            let skips = "1..1 skip\n".repeat(count);
            self.fit(headed(&(skips.clone() + "halt\n")).as_bytes());
            self.fit(headed(&(skips.clone() + "1..1 if true goto 63\nhalt\n")).as_bytes());
            self.fit(headed(&skips).as_bytes());
            self.fit(headed(&("halt\nthread\n1..1 if true goto 64\n".to_string() + &skips + "halt\n")).as_bytes());
        }
    }

    /// Sheets that read, or would, of 16,384 bytes and of one more.
    fn long_sheets(&mut self) {
        let (whole, more) = (text_of(&of_bytes(0)), text_of(&of_bytes(1)));
        for room in [0, MAX_SHEET - 1, MAX_SHEET, MAX_SHEET + 1] {
            self.add(&whole, room);
        }
        for room in [1, MAX_SHEET + 1] {
            self.add(&more, room);
        }
        let edits =
            [("limit ", "limit 9999999999"), ("skip", "skip x"), ("halt", "1..1 skip"), ("r0:=", "r0:=3333333333+")];
        for (old, new) in edits {
            self.add(&replaced(&whole, old, new), 9);
            self.add(&replaced(&more, old, new), 3);
        }
    }

    /// Sheets of these lengths that do not read: one long sum nests too deep, too many lines.
    fn unread_long_sheets(&mut self) {
        // 49 bytes of what `NAMES` says, 9 before the sum, 8 of the halt; 5 for the first one, 6 for each other:
        // 2719 are 16,379 bytes
        for count in [2, 12, 13, 100, 2717, 2718, 2719, 2720, 2721, 33_000] {
            self.fit([NAMES, &sum(count), "halt\n"].concat().as_bytes());
        }
        for operands in [12, 13, 5000] {
            let condition = "!".repeat(operands) + "true";
            self.fit([NAMES, "1..1 if ", &condition, " goto 0\nhalt\n"].concat().as_bytes());
        }
        for count in [1486, 1487] {
            self.fit(headed(&("reg 0..0\n".repeat(count) + "halt\n")).as_bytes());
            self.fit(HEAD.replace("thread\n", &("var 0..0\n".repeat(count) + "thread\nhalt")).as_bytes());
        }
        for count in [1363, 1364] {
            self.fit(headed(&("halt\nthread\n".repeat(count) + "halt")).as_bytes());
        }
        for last in ["1..99999 skip\n", "1..1 skip", "x"] {
            for count in [2042, 2043] {
                self.fit(headed(&("halt\n".repeat(count) + last)).as_bytes());
            }
        }
    }
}
