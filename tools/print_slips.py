#!/usr/bin/env python3
"""Shows that the corpus of printed sheets notices slips: rules of the printed form, and of what is refused, changed one at a time.

    print_slips.py [--only WORD] CORPUS

Works as slips.py does, on tools/print_words.rs, print_expression.rs, print_lines.rs and print_answer.rs. A second table has the
changes that only say a rule in other words. Exit status 0 if every slip is noticed and no change of words is.
"""

import sys

sys.dont_write_bytecode = True

import print_text as t
from slip_edits import first, other
from slips import Program

PRINTS = Program("prints", "--edition", "2021", edited=("print_words", "print_expression", "print_lines", "print_answer"))

slip, same = PRINTS.slip, PRINTS.same

# a text with a parenthesis round it
ROUND = 'format!("({})", '


def enclosed(operand, test):
    """An operand in a parenthesis of its own where the test holds."""
    return f"let {operand} = if {test} {{ {ROUND}{operand}) }} else {{ {operand} }};\n"


# ---- parentheses

slip("no parentheses", "no parentheses are printed", other(t.BARE, ("self.binds < least", "false")))
slip("parentheses everywhere", "every operand that is not a leaf gets parentheses", other(t.BARE, ("self.binds < least", "self.binds != Leaf && (self.binds < least || least != And)")))
slip("left operands too", "left operands of equal binding get parentheses", other(t.OPERANDS, ("first.at_least(binds)", "first.at_least(right)")))
slip("right operands bare", "right operands of equal binding get none", other(t.OPERANDS, ("second.at_least(right)", "second.at_least(binds)")))
for word, line in (("+", t.PLUS), ("-", t.LESSENED)):
    slip(f"a {word} (b + c) bare", f"a sum or difference on the right of {word} gets none", other(line, ("Product", "Sum")))
    slip(f"a {word} (b * c) enclosed", f"a product or quotient on the right of {word} gets parentheses", other(line, ("Product", "Leaf")))
for word, line in (("*", t.TIMES), ("/", t.DIVIDE)):
    slip(f"a {word} (b * c) bare", f"a product or quotient on the right of {word} gets none", other(line, ("Leaf", "Product")))
    slip(f"a {word} (b + c) bare", f"nothing on the right of {word} gets any", other(line, ("Leaf", "Sum")))
    slip(f"(a + b) {word} c bare", f"a sum or difference on the left of {word} gets none", other(t.OPERANDS, ("first.at_least(binds)", f'first.at_least(if word == "{word}" {{ Sum }} else {{ binds }})')))
slip("products enclosed on the left", "a product on the left of a sum gets parentheses", other(t.OPERANDS, ("first.at_least(binds)", "first.at_least(if binds == Sum { Leaf } else { binds })")))
slip("sums enclosed on the left", "a sum on the left of a sum gets parentheses", other(t.OPERANDS, ("first.at_least(binds)", "first.at_least(if binds == Sum { Product } else { binds })")))
slip("products as sums", "multiply and divide bind as plus and minus do", other(t.TIMES, ("Product, Leaf", "Sum, Product")), other(t.DIVIDE, ("Product, Leaf", "Sum, Product")))
slip("sums as products", "plus and minus bind as multiply and divide do", other(t.PLUS, ("Sum, Product", "Product, Leaf")), other(t.LESSENED, ("Sum, Product", "Product, Leaf")))
slip("quotients tighter", "divide binds before multiply", other(t.DIVIDE, ("Product, Leaf", "Leaf, Leaf")))
slip("negative constants enclosed", "negative constants get parentheses", other(t.CONSTANT, ("return Phrase::leaf(&signed(take(bytes, 4)))", 'return match signed(take(bytes, 4)) {\n            minus if minus.starts_with(\'-\') => Phrase::leaf(&format!("({minus})")),\n            other => Phrase::leaf(&other),\n        }')))
slip("negative right operands enclosed", "a negative constant on the right gets parentheses", (t.OPERANDS, t.OPERANDS + "    " + enclosed("right", "right.starts_with('-')")))
slip("negative left operands enclosed", "what begins with a minus on the left gets parentheses", (t.OPERANDS, t.OPERANDS + "    " + enclosed("left", "left.starts_with('-')")))
slip("- - enclosed", "a negative constant behind a minus gets parentheses", (t.OPERANDS, t.OPERANDS + "    " + enclosed("right", "word == \"-\" && right.starts_with('-')")))
slip("comparisons enclosed", "comparisons get parentheses behind ! and beside &&", other(t.BARE, ("self.binds < least", "self.binds < least || self.binds == Taken && !self.text.starts_with('!')")))
slip("! enclosed", "what begins with ! gets parentheses", other(t.BARE, ("self.binds < least", "self.binds < least || self.text.starts_with('!')")))
slip("!(a < b)", "a comparison behind ! gets parentheses", (t.TAKEN, t.TAKEN + "            " + enclosed("operand", "operand.contains(['<', '=']) && !operand.starts_with(['!', '('])")))
slip("!(!a)", "a ! behind ! gets parentheses", (t.TAKEN, t.TAKEN + "            " + enclosed("operand", "operand.starts_with('!')")))
slip("!(true)", "true and false behind ! get parentheses", (t.TAKEN, t.TAKEN + "            " + enclosed("operand", "matches!(&operand[..], \"true\" | \"false\")")))
slip("!a && b", "an and behind ! gets none", other(t.TAKEN, ("Taken", "And")))
slip("a && (b && c) bare", "an and on the right of && gets none", other(t.AND, ("And, Taken", "And, And")))
slip("(a && b) && c", "an and on the left of && gets parentheses", other(t.AND, ("first, ", "Phrase { text: first.at_least(Taken), binds: Leaf }, ")))
slip("a && (!b)", "what begins with ! on the right of && gets parentheses", other(t.AND, ("second, And", "Phrase { text: if second.text.starts_with('!') { format!(\"({})\", second.text) } else { second.at_least(Taken) }, binds: Leaf }, And")))
for side in ("first", "second"):
    slip(f"{side} side enclosed", f"the {side} side of a comparison gets parentheses if it is not a leaf", other(t.COMPARED, (f"{side}.text", f"{side}.at_least(Leaf)")))
    slip(f"{side} side's sums enclosed", f"a sum on the {side} side of a comparison gets parentheses", other(t.COMPARED, (f"{side}.text", f"{side}.at_least(Product)")))
slip("brackets", "square brackets stand for parentheses", other(t.ENCLOSED, ("({})", "[{}]")))
slip("two parentheses", "parentheses are doubled", other(t.ENCLOSED, ("({})", "(({}))")))
slip("whole values enclosed", "a sum that is assigned gets parentheses", ("    arithmetic(&mut bytes).text\n", "    arithmetic(&mut bytes).at_least(Product)\n"))
slip("whole conditions enclosed", "an and that is asked gets parentheses", ("    condition(&mut bytes).text\n", "    condition(&mut bytes).at_least(Taken)\n"))

# ---- operators and spaces

for code, word, line in (("+", "-", t.PLUS), ("-", "+", t.LESSENED), ("*", "/", t.TIMES), ("/", "*", t.DIVIDE)):
    slip(f"{word} for {code}", f"{word} is printed for {code}", other(line, (f'"{code}"', f'"{word}"')))
slip("true and false exchanged", "true is printed for 33, false for 32", other(t.TRUE, ("TRUE =>", "OTHER"), ("FALSE =>", "TRUE =>"), ("OTHER", "FALSE =>")))
slip("== and < exchanged", "== is printed for 37, < for 36", other(t.COMPARISONS, ('"<"', '"OTHER"'), ('"=="', '"<"'), ("OTHER", "==")))
slip("= for ==", "= is printed for equal", other(t.COMPARISONS, ('"=="', '"="')))
slip("& for &&", "& is printed for and", other(t.AND, ("&&", "&")))
slip("operands exchanged", "the right operand of an operator stands first", other(t.OPERATED, ("first, word, second", "second, word, first")))
slip("sides exchanged", "the right side of a comparison stands first", other(t.COMPARED, ("first.text, second.text", "second.text, first.text")))
slip("ands exchanged", "the right side of && stands first", other(t.AND, ('first, "&&", second', 'second, "&&", first')))
slip("!true is false", "!true is printed as false", (t.NOT, "            if operand == \"true\" {\n                return Phrase::leaf(\"false\");\n            }\n" + t.NOT))
slip("! twice is none", "two ! are printed as none", (t.NOT, "            if let Some(inner) = operand.strip_prefix('!') {\n                return Phrase { text: inner.to_string(), binds: Taken };\n            }\n" + t.NOT))
slip("space behind !", "a space stands behind !", other(t.NOT, ("!{", "! {")))
slip("space behind (", "a space stands behind (", other(t.ENCLOSED, ("({", "( {")))
slip("space before )", "a space stands before )", other(t.ENCLOSED, ("})", "} )")))
slip("no space before operators", "no space stands before an operator", other(t.JOINED, ("{left} {word}", "{left}{word}")))
slip("no space behind operators", "no space stands behind an operator", other(t.JOINED, ("{word} {right}", "{word}{right}")))
slip("two spaces", "two spaces stand behind an operator", other(t.JOINED, ("{word} {right}", "{word}  {right}")))
slip("products close", "no spaces stand round * and /", other(t.JOINED, ("format!(\"{left} {word} {right}\")", "if binds == Product { format!(\"{left}{word}{right}\") } else { format!(\"{left} {word} {right}\") }")))
slip("no space before a (", "no space stands between an operator and a (", other(t.JOINED, ("format!(\"{left} {word} {right}\")", "format!(\"{left} {word} {right}\").replace(\" (\", \"(\")")))
slip("no spaces in comparisons", "no spaces stand round == and <", other(t.COMPARED, ("{} {word} {}", "{}{word}{}")))
slip("tabs", "tabs stand for spaces in lines", other(t.LINE, ("&line", "&line.replace(' ', \"\\t\")")))

# ---- numbers and names

slip("low byte first", "numbers are printed low byte first", other(t.DIGITS, ("unsigned(bytes)", "unsigned(&bytes.iter().rev().copied().collect::<Vec<_>>())")))
slip("seven bits", "the highest bit of each byte is dropped", other(t.UNSIGNED, ("u64::from(byte)", "u64::from(byte & 127)")))
slip("leading zeros", "numbers have two digits or more", other(t.DIGIT, ("digits.is_empty()", "digits.len() < 2")))
slip("zero has no digits", "0 is printed as nothing", other(t.DIGIT, (" || digits.is_empty()", "")))
slip("digits reversed", "the last digit stands first", other(t.DIGIT, ("digits.insert(0, b'0' + (rest % 10) as u8)", "digits.push(b'0' + (rest % 10) as u8)")))
slip("hexadecimal", "numbers have base 16", other(t.DIGIT, ("b'0' + (rest % 10) as u8", "b\"0123456789abcdef\"[(rest % 16) as usize]")), ("        rest /= 10;\n", "        rest /= 16;\n"))
for bits in (8, 16, 24, 31):
    slip(f"{bits} bits", f"numbers are cut to {bits} bits", other(t.DIGITS, ("unsigned(bytes)", f"unsigned(bytes) & ((1 << {bits}) - 1)")))
slip("nine digits", "a tenth digit is dropped", other(t.ALL_DIGITS, ("&digits", "&digits[..digits.len().min(9)]")))
slip("unsigned values", "values are printed without a sign", (t.SIGNED, "    if number < 1 << 32 {\n        return digits(bytes);\n    }\n"))
slip("minus dropped", "a minus is not printed", other(t.MINUS, ("-{}", "{}")))
slip("space behind a minus", "a space stands behind a constant's minus", other(t.MINUS, ("-{}", "- {}")))
slip("one's complement", "negative values are one too high", other(t.BELOW_ZERO, ("- number", "- number - 1")))
slip("lowest value without a minus", "-2147483648 is printed as 2147483648", other(t.SIGNED, ("number < 1 << 31", "number <= 1 << 31")))
slip("lowest value cut", "-2147483648 is printed as -2147483647", other(t.BELOW_ZERO, ("(1u64 << 32) - number", "((1u64 << 32) - number).min((1 << 31) - 1)")))
slip("plus", "a plus stands before values that are not negative", other(t.SIGNED, ("return digits(bytes)", "return format!(\"+{}\", digits(bytes))")))
slip("minus zero", "0 is printed as -0", other(t.SIGNED, ("number < 1 << 31", "number < 1 << 31 && number > 0")), other(t.BELOW_ZERO, ("(1u64 << 32) - number", "((1u64 << 32) - number) & 0xFFFF_FFFF")))
slip("names in two words", "a space stands in a name, r 0", other(t.NAME, ("{letter}{}", "{letter} {}")))
slip("names from 1", "names count from 1", other(t.NAME, ("digits(bytes)", "unsigned(bytes) + 1")))
slip("capital letters", "names begin with a capital", other(t.NAME, ("format!(\"{letter}{}\", digits(bytes))", "format!(\"{}{}\", letter.to_uppercase(), digits(bytes))")))
slip("spaces round ..", "spaces stand round ..", other(t.ENDS, ("{}..{}", "{} .. {}")))
slip("space before ..", "a space stands before ..", other(t.ENDS, ("{}..{}", "{} ..{}")))
slip("space behind ..", "a space stands behind ..", other(t.ENDS, ("{}..{}", "{}.. {}")))
slip("three dots", "... is printed for ..", other(t.ENDS, ("{}..{}", "{}...{}")))
slip("one end", "equal ends are printed once", (t.ENDS, "    if low == high {\n        return end(low);\n    }\n" + t.ENDS))
slip("ends exchanged", "the high end stands first", other(t.ENDS, ("end(low), end(high)", "end(high), end(low)")))

# ---- lines

slip("halt with times", "halt is printed with its times", other(t.HALT, ("halt", "0..0 halt")))
slip("skip without times", "skip is printed without its times", other(t.TIMED, ("code =>", "1 => \"skip\".to_string(),\n        code =>")))
slip("two spaces behind times", "two spaces stand behind the times", other(t.TIMED, ("{} {}", "{}  {}")))
slip("statements indented", "statements are indented", ("        6 => vec![statement_line(body)],\n", "        6 => vec![format!(\"  {}\", statement_line(body))],\n"))
slip("= for :=", "= is printed for :=", other(t.ASSIGN, (":=", "=")))
slip("no spaces round :=", "no spaces stand round :=", other(t.ASSIGN, ("{} := {}", "{}:={}")))
slip("targets from 1", "targets count from 1", other(t.IF, ("digits(&operands[..1])", "operands[0] + 1")))
slip("if in a parenthesis", "a condition gets parentheses", other(t.IF, ("if {}", "if ({})")))
slip("store and load exchanged", "store is printed for 5, load for 4", other(t.STORE, ("store", "OTHER"), ("load", "store"), ("OTHER", "load")))
slip("to and from exchanged", "store has from, load has to", other(t.STORE, ("to\"", "OTHER"), ("from\"", "to\""), ("OTHER", "from\"")))
slip("register and variable exchanged", "the register's number is the variable's", other(t.NAMES, ("&operands[..1]", "&operands[OTHER]"), ("&operands[1..]", "&operands[..1]"), ("&operands[OTHER]", "&operands[1..]")))
slip("variables as v", "variables are called v", other(t.NAMES, ('"x"', '"v"')))
slip("lock and unlock exchanged", "lock is printed for 6, unlock for 7", other(t.LOCK, ("6 =>", "OTHER"), ("7 =>", "6 =>"), ("OTHER", "7 =>")))
slip("locks left out", "locks 0 is left out", (t.LOCKS, "        3 if body == [0] => vec![],\n" + t.LOCKS))
slip("no locks line", "the locks line is left out", (t.LOCKS, "        3 => vec![],\n"))
slip("budget before limit", "the budget stands before the limit", (t.LIMIT, ""), (t.BUDGET, t.BUDGET + t.LIMIT))
slip("label last", "the label stands behind the locks", (t.LABEL, ""), other(t.LOCKS, ("vec![", "vec![\"label 0..0\".to_string(), ")))
slip("limit and budget alike", "the limit is printed for the budget", other(t.BUDGET, ("4..8", "..4")))
slip("variables unsigned", "values of variables have no sign", other(t.VAR, ("signed", "digits")))
slip("registers unsigned", "values of registers have no sign", other(t.REG, ("signed", "digits")))
slip("var for reg", "registers are printed as variables are", other(t.REG, ("reg", "var")))
slip("thread with its registers", "the number of registers stands behind thread", other(t.THREAD, ("\"thread\".to_string()", "format!(\"thread {}\", digits(body))")))
slip("blank line before threads", "a blank line stands before each thread", other(t.THREAD, ("vec![", "vec![String::new(), ")))
slip("space at a line's end", "a space stands at each line's end", other(t.LINE, ("\"\\n\"", "\" \\n\"")))
slip("carriage returns", "a carriage return stands before each newline", other(t.LINE, ("\"\\n\"", "\"\\r\\n\"")))
slip("last newline missing", "no newline stands behind the last line", (t.PRINTED, "    text.pop();\n" + t.PRINTED))
slip("blank line at the end", "a blank line ends the text", (t.PRINTED, "    text += \"\\n\";\n" + t.PRINTED))
slip("zero at the end", "a byte 0 ends the text", (t.PRINTED, "    text += \"\\0\";\n" + t.PRINTED))

# ---- what is refused

slip("all refused", "no sheet is printed", first(t.READ, "    return Err(Fault { refusal: 1, place: 0 });\n"))
slip("9 never", "a sheet may have any length", (t.READ, "    if let Some((refusal, place)) = crate::oracle::fields_refused(&case.sheet) {\n        return Err(Fault { refusal, place });\n    }\n"))
slip("9 at 16,384", "a sheet of 16,384 bytes is too long", first(t.READ, "    if case.sheet.len() >= 16_384 {\n        return Err(Fault { refusal: 9, place: 0 });\n    }\n"))
slip("9 for the text", "a text of more than 16,384 bytes is 9", first(t.ROOM, "    if text.len() > 16_384 {\n        return Err(Fault { refusal: 9, place: 0 });\n    }\n"))
slip("9 last", "1 to 8 are given before 9", first(t.READ, "    if let Some((refusal, place)) = crate::oracle::fields_refused(&case.sheet) {\n        return Err(Fault { refusal, place });\n    }\n"))
slip("one number for all", "1 is given in the place of 2 to 9", other(t.READ, ("?", ".map_err(|told| Fault { refusal: 1, ..told })?")))
slip("one place for all", "the sheet's number has place 0", other(t.READ, ("?", ".map_err(|told| Fault { place: 0, ..told })?")))
slip("a byte late", "the sheet's number has its place one byte late", other(t.READ, ("?", ".map_err(|told| Fault { place: told.place + 1, ..told })?")))
for number in range(1, 10):
    slip(f"{number} is 19", f"19 is given in the place of {number}", other(t.READ, ("?", f".map_err(|told| if told.refusal == {number} {{ Fault {{ refusal: OUTPUT_FULL, place: 0 }} }} else {{ told }})?")))
slip("19 first", "with no room 19 is given before the sheet is read", first(t.READ, "    if case.room == 0 {\n        return Err(Fault { refusal: OUTPUT_FULL, place: 0 });\n    }\n"))
for number in (9, 14, 20):
    slip(f"19 is {number}", f"{number} is given in the place of 19", other(t.ROOM, ("OUTPUT_FULL", str(number))))
slip("19 at the buffer's end", "19's place is the buffer's length", other(t.ROOM, ("place: 0", "place: case.room")))
slip("19 at the sheet's end", "19's place is the sheet's length", other(t.ROOM, ("place: 0", "place: case.sheet.len()")))
slip("a byte too few", "one byte fewer than the text suffices", other(t.ROOM, ("> case.room", "> case.room + 1")), first(t.WRITTEN, "    text.truncate(case.room);\n"))
slip("a byte more", "one byte more than the text is asked for", other(t.ROOM, ("> case.room", ">= case.room")))
slip("room for 98,304", "98,304 bytes are always asked for", other(t.ROOM, ("text.len()", "98_304")))
slip("room for 65,535", "a text of more than 65,535 bytes does not fit", other(t.ROOM, ("> case.room", "> case.room.min(65_535)")))
slip("text cut", "a text that does not fit is cut", (t.ROOM, ""), first(t.WRITTEN, "    text.truncate(case.room);\n"))
slip("text left where 19", "the text stays, as far as it goes, where 19 is given", (t.REFUSED, "        Err(told) if told.refusal == OUTPUT_FULL => (told, printed(&case.sheet)[..case.room].to_vec()),\n" + t.REFUSED), (t.WRITTEN, "    let written = if told.refusal == 0 { text.len() } else { 0 };\n"))
slip("zeros lacking", "what is behind the text is 255", other(t.TAIL, (", 0", ", if told.refusal == 0 { 255 } else { 0 }")))
slip("zeros lacking where refused", "what a refused one leaves is 255", other(t.TAIL, (", 0", ", if told.refusal == 0 { 0 } else { 255 }")))
slip("zeros lacking where 19", "the same, only where 19 is given", other(t.TAIL, (", 0", ", if told.refusal == OUTPUT_FULL { 255 } else { 0 }")))
slip("one zero", "only one byte behind the text is zeroed", (t.TAIL, "    text.resize(case.room.min(written + 1), 0);\n    text.resize(case.room, 7);\n"))
slip("spaces behind", "spaces stand behind the text", other(t.TAIL, (", 0", ", if told.refusal == 0 { b' ' } else { 0 }")))
slip("room told", "the buffer's length is told as what is written", other(t.WRITTEN, ("text.len()", "if told.refusal == 0 { case.room } else { 0 }")))
slip("written where 19", "19 tells the text's length", other(t.WRITTEN, ("text.len()", "if told.refusal == OUTPUT_FULL { needed(&case.sheet) } else { text.len() }")))
slip("written of 16 bits", "what is written is cut to 16 bits", other(t.WRITTEN, ("text.len()", "text.len() & 0xFFFF")))
slip("nothing written", "0 is told as what is written", other(t.WRITTEN, ("text.len()", "0 * text.len()")))

# ---- the same rules in other words

same("numbers by the library", "the standard library prints numbers in the same digits", (t.ALL_DIGITS, "    unsigned(bytes).to_string()\n"))
same("values by the library", "the standard library prints signed numbers in the same digits", (t.SIGNED, "    if bytes.len() == 4 {\n        return (number as u32 as i32).to_string();\n    }\n" + t.SIGNED))
same("labels signed", "no number of a label is above 1,000,000", other(t.LABEL, ("digits", "signed")))
same("left side of && by what it is", "nothing binds more loosely than &&", other(t.AND, ("first, ", "Phrase { text: first.text, binds: Leaf }, ")))
same("leaves by !", "a leaf binds more tightly than what ! takes", other(t.TAKEN, ("condition(bytes).at_least(Taken)", "condition(bytes);\n            let operand = if operand.binds == And { format!(\"({})\", operand.text) } else { operand.text }")))
same("19 by what is left", "a text fits where no byte of it is left over", other(t.ROOM, ("text.len() > case.room", "text.get(case.room).is_some()")))
same("zeros in two parts", "zeros are put behind the text, however many at a time", (t.TAIL, "    text.resize(case.room.min(written + 10), 0);\n" + t.TAIL))


if __name__ == "__main__":
    PRINTS.main(sys.argv[1:], "usage: print_slips.py [--only WORD] CORPUS")
