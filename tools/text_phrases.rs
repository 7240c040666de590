//! Cases of expressions: how operators bind, needless parentheses, parentheses round either kind, and words of
//! expressions in any order.

use crate::entries::Cases;
use crate::generator::Random;
use crate::text_answer::Case;
use crate::text_cases::named;

const OPERATORS: [&str; 4] = ["+", "-", "*", "/"];
const WORDS: [&str; 15] = ["r0", "5", "-", "+", "*", "/", "(", ")", "(", ")", "<", "==", "&&", "!", "true"];
/// Words of conditions; the first of them are likelier.
const OF_CONDITIONS: [&str; 14] = ["(", ")", "r0", "!", "&&", "<", "true", "1", "==", "false", "+", "-", "goto", "/"];
const MOST_WORDS: usize = 9;
const RANDOM: usize = 300;

/// How each is read, or where it stops, is the converter's to say; most can be read.
const ARITHMETIC: [&str; 33] = [
    "-0", "- 0", "00", "-007", "--1", "-(1)", "(-1)", "(- 1)", "+1", "1-1", "1--1", "1 - -1", "1- - 1", "1---1",
    "r0-1", "-1-r0", "r00", "r-1", "(r0)", "((r0))", "(r0", "r0)", "()", "(1)(2)", "1 2", "r0 r0", "r0(1)", "(1)r0",
    "1*-2/-3", "true", "!1", "1<2", "(1<2)",
];
const CONDITIONS: [&str; 55] = [
    "true",
    "false",
    "!true",
    "!!false",
    "! ! true",
    "!r0<1",
    "!(r0<1)",
    "!(r0)<1",
    "!!(r0)==(1)",
    "(true)",
    "((false))",
    "(!true)",
    "!(!true)",
    "(true)&&false",
    "true&&(false)",
    "true&&false&&true",
    "true&&(false&&true)",
    "(true&&false)&&true",
    "((true&&false))",
    "!true&&false",
    "!(true&&false)",
    "r0<1&&1<r0",
    "(r0<1)&&(1<r0)",
    "!r0==1&&!1<r0",
    "(r0)<1",
    "((r0))<((1))",
    "((r0)<1)",
    "(((r0)+1)<1)",
    "((r0)+1)*2<1",
    "(r0+1)*2==r0",
    "(r0)&&true",
    "(r0)",
    "r0",
    "r0<1<2",
    "r0==1==2",
    "true==true",
    "true<1",
    "(true)<1",
    "(r0<1)<2",
    "(r0<1)+1<2",
    "(true)+1<2",
    "r0=1",
    "r0<=1",
    "r0>1",
    "r0!=1",
    "true&false",
    "true||false",
    "true true",
    "!",
    "r0<!true",
    "r0<(true)",
    "r0<(1<2)",
    "r0+(1<2)<3",
    "tru",
    "(r0<1",
];

/// So many parentheses round something, closed again.
pub fn within(count: usize, inner: &str) -> String {
    "(".repeat(count) + inner + &")".repeat(count)
}

fn assigned(value: &str) -> String {
    named(&format!("1..1 r0 := {value}"))
}

fn jumped(condition: &str) -> String {
    named(&format!("1..1 if {condition} goto 0"))
}

impl Cases<Case> {
    pub fn phrases(&mut self, seed: u64) {
        self.fit_all(&ARITHMETIC.map(assigned));
        self.fit_all(&CONDITIONS.map(jumped));
        self.fit_all(&ARITHMETIC.map(|value| jumped(&format!("{value} < 1"))));
        self.fit_all(&ARITHMETIC.map(|value| jumped(&format!("(1 == ({value}))"))));
        self.fit_all(&CONDITIONS.map(|condition| jumped(&format!("({condition}) && true"))));
        self.fit_all(&CONDITIONS.map(|condition| jumped(&format!("!{condition}"))));
        self.bindings();
        self.parentheses();
        let mut random = Random(seed);
        for _ in 0..RANDOM {
            let value = random.words(&WORDS);
            self.fit(assigned(&value).as_bytes());
            let condition = random.words(&OF_CONDITIONS);
            self.fit(jumped(&condition).as_bytes());
        }
    }

    /// Two and three operators, with parentheses in each place and none.
    fn bindings(&mut self) {
        for first in OPERATORS {
            for second in OPERATORS {
                self.fit(assigned(&format!("1 {first} 2 {second} 3")).as_bytes());
                self.fit(assigned(&format!("1 {first} (2 {second} 3)")).as_bytes());
                self.fit(assigned(&format!("(1{first}2){second}3")).as_bytes());
                self.fit(jumped(&format!("1{first}-2 < 3{second}4")).as_bytes());
                self.fit(jumped(&format!("(1{first}2) == 3 && (4{second}5) < 6")).as_bytes());
                for third in OPERATORS {
                    self.fit(assigned(&format!("1{first}2{second}3{third}4")).as_bytes());
                }
            }
        }
        for count in 2..14 {
            // a chain nests as deep as it has operands
            self.fit(assigned(&vec!["r0"; count].join("+")).as_bytes());
            self.fit(assigned(&vec!["1"; count].join("/")).as_bytes());
            self.fit(jumped(&vec!["true"; count].join("&&")).as_bytes());
            self.fit(jumped(&("!".repeat(count) + "false")).as_bytes());
            self.fit(jumped(&("! ".repeat(count) + "r0<1")).as_bytes());
            self.fit(jumped(&(vec!["r0"; count].join("*") + "==1")).as_bytes());
            // to the right it needs parentheses
            self.fit(assigned(&("1-(".repeat(count) + "1" + &")".repeat(count))).as_bytes());
            self.fit(jumped(&("true&&(".repeat(count) + "true" + &")".repeat(count))).as_bytes());
        }
    }

    /// 32 deep and 33, of each kind and of both, and parentheses that do not close.
    fn parentheses(&mut self) {
        for count in [31, 32, 33, 34, 64] {
            for inner in ["r0", "-1", "r0 + 1"] {
                self.fit(assigned(&within(count, inner)).as_bytes());
                self.fit(jumped(&(within(count, inner) + "<1")).as_bytes());
                self.fit(jumped(&("1==".to_string() + &within(count, inner))).as_bytes());
            }
            for inner in ["true", "r0<1", "!(false)"] {
                self.fit(jumped(&within(count, inner)).as_bytes());
                self.fit(jumped(&("!".to_string() + &within(count - 1, inner))).as_bytes());
            }
            for (outer, inner) in [(count - 20, 20), (1, count - 1), (count - 1, 1)] {
                self.fit(jumped(&within(outer, &(within(inner, "r0") + "<1"))).as_bytes());
                self.fit(jumped(&within(outer, &("1<".to_string() + &within(inner, "r0")))).as_bytes());
                self.fit(jumped(&within(outer, &(within(inner, "true") + "&&true"))).as_bytes());
            }
            self.fit(assigned(&"(".repeat(count)).as_bytes());
            self.fit(assigned(&("(".repeat(count) + "1" + &")".repeat(count - 1))).as_bytes());
            self.fit(assigned(&("(".repeat(count) + "1" + &")".repeat(count + 1))).as_bytes());
        }
        // one behind the other they are not deep
        self.fit(assigned(&vec!["(1)"; 12].join("+")).as_bytes());
        self.fit(jumped(&vec!["((true))"; 12].join("&&")).as_bytes());
        self.fit(assigned(&(within(32, "1") + "+" + &within(32, "1"))).as_bytes());
        self.fit(assigned(&(within(32, "1") + "+" + &within(33, "1"))).as_bytes());
    }
}

impl Random {
    /// Words in any order, with spaces between some.
    fn words(&mut self, words: &[&str]) -> String {
        let count = self.between(1, MOST_WORDS);
        let mut phrase = String::new();
        for _ in 0..count {
            // the first words of the list are the likelier ones
            let which = self.below(words.len()).min(self.below(words.len()));
            phrase += words[which];
            phrase += [" ", "", ""][self.below(3)];
        }
        phrase
    }
}
