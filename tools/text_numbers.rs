//! Cases of numbers: about the ends of each field's range, leading zeros, a minus, and numbers of which a field would
//! hold the rest if they were cut.

use crate::entries::Cases;
use crate::text_answer::Case;
use crate::text_cases::{named, NAMES};

/// Texts with one number left open, #, and whether it may have a minus.
fn places() -> Vec<(String, bool)> {
    let header = |nth: usize, line: &str| {
        let mut lines = ["limit 1000", "budget 1", "label 0..0", "locks 1", "thread", "halt"];
        lines[nth] = line;
        lines.join("\n")
    };
    vec![
        (header(0, "limit #"), false),
        (header(1, "budget #"), false),
        (header(2, "label #..1000"), false),
        (header(2, "label 0..#"), false),
        (header(3, "locks #"), false),
        (header(4, "var #..2147483647\nthread"), true),
        (header(4, "var -2147483648..#\nthread"), true),
        (header(5, "reg #..2147483647\nhalt"), true),
        (header(5, "reg -2147483648..#\nhalt"), true),
        (named("#..65535 skip"), false),
        (named("1..# skip"), false),
        (named("1..1 r# := 0"), false),
        (named("1..1 r0 := r#"), false),
        (named("1..1 r0 := #"), true),
        (named("1..1 if r0 < # goto 0"), true),
        (named("1..1 if true goto #"), false),
        (named("1..1 store r# to x0"), false),
        (named("1..1 store r0 to x#"), false),
        (named("1..1 load r# from x0"), false),
        (named("1..1 load r0 from x#"), false),
        (named("1..1 lock l#"), false),
        (named("1..1 unlock l#"), false),
    ]
}

/// About powers of two and of ten, and those powers with a good number above them.
fn numbers() -> Vec<String> {
    let mut numbers: Vec<String> =
        ["0", "1", "2", "7", "8", "9", "00", "0000000001", "000000000000000000000000000001"].map(String::from).to_vec();
    for power in [8, 16, 31, 32, 64] {
        let power = 1_u128 << power;
        numbers.extend([power - 1, power, power + 1].map(|number| number.to_string()));
    }
    let two_to_128_and_one = "340282366920938463463374607431768211457";
    numbers
        .extend(["1000", "1001", "1000000", "1000001", "10000000", "10000001", two_to_128_and_one].map(String::from));
    numbers
}

impl Cases<Case> {
    pub fn numbers(&mut self) {
        for (text, signed) in places() {
            for number in numbers() {
                self.fit(text.replace('#', &number).as_bytes());
            }
            let minus = ["-1", "- 1", "-0", "-", "--1", "-2147483647", "-2147483648", "-2147483649", "-4294967295"];
            for number in &minus[..if signed { 9 } else { 4 }] {
                self.fit(text.replace('#', number).as_bytes());
            }
            for number in ["", "x", "1.", "0x1", "1_0", "+1", "\u{661}"] {
                self.fit(text.replace('#', number).as_bytes());
            }
        }
        self.long();
    }

    /// Of very many digits.
    fn long(&mut self) {
        let zeros = "0".repeat(400);
        let nines = "9".repeat(400);
        for (nth, (text, signed)) in places().into_iter().enumerate() {
            self.fit(text.replace('#', &(zeros.clone() + "1")).as_bytes());
            if nth % 3 == 0 || signed {
                self.fit(text.replace('#', &nines).as_bytes());
                self.fit(text.replace('#', &("1".to_string() + &zeros + "1")).as_bytes());
            }
            if signed {
                self.fit(text.replace('#', &("-".to_string() + &zeros + "7")).as_bytes());
                self.fit(text.replace('#', &("-".to_string() + &nines)).as_bytes());
            }
        }
        self.fit([NAMES, "1..1 r0 := ", &"1".repeat(3000), "\nhalt"].concat().as_bytes());
        self.fit([NAMES, "1..1 r0 := ", &"0".repeat(3000), "\nhalt"].concat().as_bytes());
        // a place above 65,535
        self.fit([&named("1..1 skip")[..], &" ".repeat(66_000), "x"].concat().as_bytes());
        self.fit([&NAMES[..], &" ".repeat(66_000), "1..1 r0 := 256\n", "1..1 lock l1"].concat().as_bytes());
    }
}
