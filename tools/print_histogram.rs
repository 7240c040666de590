//! What a corpus of printed sheets holds: entries by refusal, what stands in what on which side, numbers, sizes.

use crate::entries::{Entry, WRONG};
use crate::generator::fields;
use crate::print_corpus::{Print, WRONG_TEXT};
use crate::print_sizes::MAX_SHEET;
use std::collections::{BTreeMap, BTreeSet};
use std::ops::Range;

const REFUSALS: [u8; 11] = [0, 1, 2, 3, 4, 5, 6, 7, 8, 9, 19];
const OPERATORS: [&str; 4] = ["+", "-", "*", "/"];
/// What may stand in an operator: a constant below zero apart from the other operands.
const INNER: [&str; 6] = ["operand", "negative", "+", "-", "*", "/"];
/// What may stand in `!` and in `&&`.
const CONDITIONS: [&str; 4] = ["true, false", "comparison", "!", "&&"];

/// What stands where: how often a side of an outer one is an inner one, in the sheets that are printed.
#[derive(Default)]
struct Tree {
    /// Of outer, side and inner.
    sides: BTreeMap<(&'static str, usize, &'static str), usize>,
    /// Of the depth of a whole expression.
    depths: BTreeMap<usize, usize>,
    /// Constants below zero that are the lowest value.
    lowest: usize,
}

impl Tree {
    /// The expression that begins these bytes, which are left behind it: its kind and how deep it is.
    fn walk(&mut self, bytes: &mut &[u8]) -> (&'static str, usize) {
        let (code, rest) = (bytes[0], &bytes[1..]);
        *bytes = rest;
        let (kind, size) = match code {
            16 if rest[0] > 127 => ("negative", 4),
            16 => ("operand", 4),
            17 => ("operand", 1),
            18..=21 => (OPERATORS[usize::from(code) - 18], 0),
            32 | 33 => ("true, false", 0),
            34 => ("!", 0),
            35 => ("&&", 0),
            _ => ("comparison", 0),
        };
        self.lowest += usize::from(code == 16 && rest[..4] == [128, 0, 0, 0]);
        *bytes = &bytes[size..];
        let operands = match code {
            16 | 17 | 32 | 33 => 0,
            34 => 1,
            _ => 2,
        };
        let mut deepest = 0;
        for side in 0..operands {
            let (inner, depth) = self.walk(bytes);
            *self.sides.entry((kind, side, inner)).or_default() += 1;
            deepest = deepest.max(depth);
        }
        (kind, deepest + 1)
    }

    fn of(entries: &[&Print]) -> Tree {
        let mut tree = Tree::default();
        for sheet in entries.iter().map(|entry| &entry.case.sheet) {
            for place in fields(sheet) {
                if sheet[place] == 6 && [2, 3].contains(&sheet[place + 7]) {
                    let (_, depth) = tree.walk(&mut &sheet[place + 9..]);
                    *tree.depths.entry(depth).or_default() += 1;
                }
            }
        }
        tree
    }

    /// A table of some outer ones, by side and inner one.
    fn table(&self, outers: &[&'static str], sides: &[(usize, &str)], inners: &[&'static str]) {
        println!("| | {} |\n|---|{}", inners.join(" | "), "---|".repeat(inners.len()));
        for &outer in outers {
            for (side, name) in sides {
                let of = |&inner: &&'static str| self.sides.get(&(outer, *side, inner)).unwrap_or(&0).to_string();
                println!("| `{outer}`{name} | {} |", inners.iter().map(of).collect::<Vec<_>>().join(" | "));
            }
        }
    }
}

/// The planted entries are counted apart.
pub fn histogram(all: &[Print]) {
    let (entries, planted): (Vec<&Print>, Vec<&Print>) = all.iter().partition(|entry| entry.planted == 0);
    let bytes: usize = entries.iter().map(|entry| entry.bytes().len()).sum();
    println!("{} entries, {} bytes", entries.len(), bytes + 4);
    let of = |what: u8| planted.iter().filter(|entry| entry.planted == what).count();
    println!("planted besides: {} wrong numbers, {} wrong texts", of(WRONG), of(WRONG_TEXT));
    refusals(&entries);
    let printed: Vec<&Print> = entries.iter().filter(|entry| entry.stated.told.refusal == 0).copied().collect();
    let tree = Tree::of(&printed);
    let sides = [(0, ", left"), (1, ", right")];
    tree.table(&OPERATORS, &sides, &INNER);
    tree.table(&["comparison"], &sides, &INNER);
    tree.table(&["!"], &[(0, "")], &CONDITIONS);
    tree.table(&["&&"], &sides, &CONDITIONS);
    println!("expressions by depth: {:?}; the lowest value: {}", tree.depths, tree.lowest);
    sizes(&entries, &printed);
}

fn refusals(entries: &[&Print]) {
    let row = |name: &str, of: &dyn Fn(&[&Print]) -> usize| {
        let with = |refusal: u8| {
            of(&entries.iter().filter(|entry| entry.stated.told.refusal == refusal).copied().collect::<Vec<_>>())
                .to_string()
        };
        println!("| {name} | {} |", REFUSALS.map(with).join(" | "));
    };
    println!("| refusal | {} |\n|---|{}", REFUSALS.map(|refusal| refusal.to_string()).join(" | "), "---|".repeat(11));
    row("entries", &|some| some.len());
    row("places", &|some| some.iter().map(|entry| entry.stated.told.place).collect::<BTreeSet<_>>().len());
    row("room 0", &|some| some.iter().filter(|entry| entry.case.room == 0).count());
}

fn sizes(entries: &[&Print], printed: &[&Print]) {
    let count = |test: &dyn Fn(&Print) -> bool| entries.iter().filter(|entry| test(entry)).count();
    let left = |left: Range<usize>| {
        printed.iter().filter(|entry| left.contains(&(entry.case.room - entry.stated.written))).count()
    };
    println!(
        "printed with 0, 1 to 8, 9 to 1000, more bytes left: {:?}",
        [0..1, 1..9, 9..1001, 1001..999_999].map(left)
    );
    let short = |entry: &Print| {
        entry.stated.told.refusal == 19 && crate::print_answer::needed(&entry.case.sheet) == entry.case.room + 1
    };
    println!("19 with one byte too few: {}", count(&short));
    let longest = printed.iter().map(|entry| entry.stated.written).max().unwrap_or(0);
    let above = |bytes: usize| printed.iter().filter(|entry| entry.stated.written > bytes).count();
    println!("texts above 300 bytes: {}, above 10,000: {}; longest {longest}", above(300), above(10_000));
    println!("sheets of 16,384 bytes: {}", count(&|entry| entry.case.sheet.len() == MAX_SHEET));
    println!("longer sheets: {}", count(&|entry| entry.case.sheet.len() > MAX_SHEET));
}
