//! Cases of how lines are spelt: each line with its words run together, apart, cut, doubled, removed, in capitals and
//! with bytes that no word has.

use crate::entries::Cases;
use crate::text_answer::Case;
use crate::text_cases::NAMES;

/// What stands before a line, its words, what stands behind it.
type Spelt = (String, Vec<&'static str>, String);

const LINES: [&str; 6] = ["limit 1\n", "budget 1\n", "label 0..1\n", "locks 1\n", "thread\n", "halt\n"];
/// Bytes that are put between words and into them.
const ODD: [u8; 16] = *b" \t\r\n\0\x7F\x80\xA0\xFF0a#.-=;";

fn all_lines() -> Vec<Spelt> {
    let header =
        |nth: usize, words: &[&'static str]| (LINES[..nth].concat(), words.to_vec(), LINES[nth + 1..].concat());
    let line = |words: &[&'static str]| (NAMES.to_string(), words.to_vec(), "halt\n".to_string());
    vec![
        header(0, &["limit", "12"]),
        header(1, &["budget", "34"]),
        header(2, &["label", "0", "..", "1"]),
        header(3, &["locks", "2"]),
        (LINES[..4].concat(), vec!["var", "-", "3", "..", "-", "2"], LINES[4..].concat()),
        header(4, &["thread"]),
        (LINES[..5].concat(), vec!["reg", "-", "3", "..", "14"], LINES[5..].concat()),
        header(5, &["halt"]),
        line(&["12", "..", "13", "skip"]),
        line(&["1", "..", "1", "r0", ":=", "-", "5", "-", "r0", "*", "(", "6", "+", "r0", ")", "/", "7"]),
        line(&["1", "..", "1", "if", "r0", "<", "5", "goto", "1"]),
        line(&["1", "..", "1", "if", "!", "true", "&&", "(", "false", ")", "goto", "0"]),
        line(&[
            "1", "..", "1", "if", "(", "r0", "+", "1", ")", "==", "-", "8", "&&", "!", "!", "(", "r0", "<", "(", "2",
            ")", ")", "goto", "0",
        ]),
        line(&["1", "..", "1", "store", "r0", "to", "x0"]),
        line(&["1", "..", "1", "load", "r0", "from", "x0"]),
        line(&["1", "..", "1", "lock", "l0"]),
        line(&["1", "..", "1", "unlock", "l0"]),
        (NAMES.to_string() + "halt\n", vec!["thread"], "halt\n".to_string()),
    ]
}

/// A space only where letters or digits would meet.
fn closed(words: &[&str]) -> String {
    let mut line = String::new();
    for word in words {
        let of_words = |byte: Option<&u8>| byte.is_some_and(u8::is_ascii_alphanumeric);
        if of_words(line.as_bytes().last()) && of_words(word.as_bytes().first()) {
            line.push(' ');
        }
        line += word;
    }
    line
}

/// Other forms of a line, most of them unreadable.
fn forms(words: &[&str]) -> Vec<Vec<u8>> {
    let mut forms = vec![words.join(" "), words.join("  ") + " ", " ".to_string() + &closed(words), words.concat()];
    for at in 0..words.len() {
        let with = |word: &[&str]| [&words[..at], word, &words[at + 1..]].concat().join(" ");
        let word = words[at];
        forms.push(with(&[]));
        forms.push(with(&[word, word]));
        forms.push(with(&[&word[..word.len() - 1]]));
        forms.push(with(&[&(word.to_string() + &word[word.len() - 1..])]));
        forms.push(with(&[&word.to_ascii_uppercase()]));
        forms.push(with(&[&word.split("").collect::<Vec<_>>().join(" ")]));
        // run together with the word before
        forms.push([words[..at].join(" "), words[at..].join(" ")].concat());
    }
    forms.into_iter().map(String::into_bytes).collect()
}

impl Cases<Case> {
    pub fn spelling(&mut self) {
        for (before, words, behind) in all_lines() {
            let whole = |line: &[u8]| [before.as_bytes(), line, b"\n", behind.as_bytes()].concat();
            for form in forms(&words) {
                self.fit(&whole(&form));
            }
            let line = closed(&words).into_bytes();
            for at in 0..=line.len() {
                // the text ends in the line
                self.fit(&[before.as_bytes(), &line[..at]].concat());
                // a byte more, or another byte, or none
                let odd = &ODD[(7 * at + line.len()) % ODD.len()..][..1];
                let (put, taken) = [(odd, 0), (odd, 1), (&[], 1)][at % 3];
                self.fit(&whole(&[&line[..at], put, &line[(at + taken).min(line.len())..]].concat()));
            }
        }
        self.without_times();
        self.every_byte();
    }

    /// Statements that lack their times, or one of them, behind a register and behind a statement.
    fn without_times(&mut self) {
        let statements = [
            "skip",
            "r0 := 1",
            "if true goto 0",
            "store r0 to x0",
            "load r0 from x0",
            "lock l0",
            "unlock l0",
            "goto 0",
        ];
        for statement in statements {
            for times in ["", "1 ", "1.. ", "..1 ", "1..1 1..1 ", "1..1..1 "] {
                for before in ["", "1..1 skip\n"] {
                    self.fit([NAMES, before, times, statement, "\nhalt\n"].concat().as_bytes());
                }
            }
        }
    }

    /// Each byte where a line is due, each that is in ASCII where an operand is due and behind one.
    fn every_byte(&mut self) {
        let front = LINES[..5].concat();
        for byte in 0..=255 {
            self.fit(&[front.as_bytes(), &[byte], b"halt"].concat());
        }
        for byte in 0..128 {
            for (before, behind) in [("1..1 r0 :=", "0"), ("1..1 if 1", "<r0 goto 1")] {
                self.fit(&[NAMES.as_bytes(), before.as_bytes(), &[byte], behind.as_bytes(), b"\nhalt"].concat());
            }
        }
    }
}
