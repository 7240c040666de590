"""What stands in print_words.rs, print_expression.rs, print_lines.rs and print_answer.rs, for the slips of print_slips.py."""

# ---- print_words.rs

UNSIGNED = "    bytes.iter().fold(0, |number, &byte| number * 256 + u64::from(byte))\n"
DIGITS = "    let mut rest = unsigned(bytes);\n"
DIGIT = "    while rest > 0 || digits.is_empty() {\n        digits.insert(0, b'0' + (rest % 10) as u8);\n"
ALL_DIGITS = "    String::from_utf8_lossy(&digits).into_owned()\n"
SIGNED = "    if number < 1 << 31 {\n        return digits(bytes);\n    }\n"
BELOW_ZERO = "    let below_zero = (1u64 << 32) - number;\n"
MINUS = "    format!(\"-{}\", digits(&below_zero.to_be_bytes()))\n"
NAME = "    format!(\"{letter}{}\", digits(bytes))\n"
ENDS = "    format!(\"{}..{}\", end(low), end(high))\n"

# ---- print_expression.rs

BARE = "        if self.binds < least {\n"
ENCLOSED = "            return format!(\"({})\", self.text);\n"
OPERANDS = "    let (left, right) = (first.at_least(binds), second.at_least(right));\n"
JOINED = "    Phrase { text: format!(\"{left} {word} {right}\"), binds }\n"
CONSTANT = "        CONSTANT => return Phrase::leaf(&signed(take(bytes, 4))),\n"
REGISTER = "        REGISTER => return Phrase::leaf(&name(\"r\", take(bytes, 1))),\n"
PLUS = "        PLUS => (\"+\", Sum, Product),\n"
LESSENED = "        MINUS => (\"-\", Sum, Product),\n"
TIMES = "        TIMES => (\"*\", Product, Leaf),\n"
DIVIDE = "        DIVIDE => (\"/\", Product, Leaf),\n"
OPERATED = "    joined(first, word, second, binds, right)\n"
COMPARED = "    Phrase { text: format!(\"{} {word} {}\", first.text, second.text), binds: Taken }\n"
TRUE = "        TRUE => Phrase::leaf(\"true\"),\n        FALSE => Phrase::leaf(\"false\"),\n"
TAKEN = "            let operand = condition(bytes).at_least(Taken);\n"
NOT = "            Phrase { text: format!(\"!{operand}\"), binds: Taken }\n"
AND = "            joined(first, \"&&\", second, And, Taken)\n"
COMPARISONS = "        EQUAL => comparison(bytes, \"==\"),\n        LESS => comparison(bytes, \"<\"),\n"

# ---- print_lines.rs

NAMES = "        format!(\"{word} {} {between} {}\", name(\"r\", &operands[..1]), name(\"x\", &operands[1..]))\n"
SKIP = "        1 => \"skip\".to_string(),\n"
ASSIGN = "        2 => format!(\"{} := {}\", name(\"r\", &operands[..1]), value_text(&operands[1..])),\n"
IF = "        3 => format!(\"if {} goto {}\", condition_text(&operands[1..]), digits(&operands[..1])),\n"
STORE = "        4 => registers(\"store\", \"to\"),\n        5 => registers(\"load\", \"from\"),\n"
LOCK = "        6 => format!(\"unlock {}\", name(\"l\", operands)),\n        7 => format!(\"lock {}\", name(\"l\", operands)),\n"
HALT = "        0 => \"halt\".to_string(),\n"
TIMED = "        code => format!(\"{} {}\", ends(&body[..4], digits), statement(code, &body[5..])),\n"
LIMIT = "            format!(\"limit {}\", digits(&body[..4])),\n"
BUDGET = "            format!(\"budget {}\", digits(&body[4..8])),\n"
LABEL = "            format!(\"label {}\", ends(&body[8..], digits)),\n"
VAR = "        2 => vec![format!(\"var {}\", ends(body, signed))],\n"
LOCKS = "        3 => vec![format!(\"locks {}\", digits(body))],\n"
THREAD = "        4 => vec![\"thread\".to_string()],\n"
REG = "        5 => vec![format!(\"reg {}\", ends(body, signed))],\n"
LINE = "            text += &line;\n            text += \"\\n\";\n"
PRINTED = "    text.into_bytes()\n"

# ---- print_answer.rs

READ = "    reads(&case.sheet)?;\n"
ROOM = "    if text.len() > case.room {\n        return Err(Fault { refusal: OUTPUT_FULL, place: 0 });\n    }\n"
REFUSED = "        Err(told) => (told, Vec::new()),\n"
WRITTEN = "    let written = text.len();\n"
TAIL = "    text.resize(case.room, 0);\n"
