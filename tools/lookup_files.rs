//! The files of the cases chosen by hand, and what they are made of.

use super::{NAME, OTHER};
use crate::field::field;

pub fn pair(name: u8, sheet: &[u8]) -> Vec<u8> {
    [field(48, &[name]), field(49, sheet)].concat()
}

/// Bytes that differ from their neighbours, and from those of another start.
pub fn sheet(length: usize, start: u8) -> Vec<u8> {
    (0..length).map(|at| start.wrapping_add((5 * at + at / 256) as u8)).collect()
}

/// Pairs of these names, with sheets of these lengths.
pub fn pairs(names: &[u8], lengths: &[usize]) -> Vec<u8> {
    let both = names.iter().zip(lengths).enumerate();
    both.flat_map(|(at, (&name, &length))| pair(name, &sheet(length, at as u8 + 1))).collect()
}

/// Files of up to three pairs, the name in one of them or in none.
pub fn with_name_once(name: u8, lengths: &[usize; 3]) -> Vec<Vec<u8>> {
    let others = [1, 2, 128].map(|bit| name ^ bit);
    let mut files = Vec::new();
    for count in 0..=3 {
        for at in 0..=count {
            let mut names = others[..count].to_vec();
            names.iter_mut().skip(at).take(1).for_each(|other| *other = name);
            files.push(pairs(&names, lengths));
        }
    }
    files
}

/// Files that read to their end, with several pairs.
pub fn well_formed() -> Vec<Vec<u8>> {
    vec![
        pairs(&[OTHER, NAME, 9], &[2, 3, 1]),
        pairs(&[NAME, NAME], &[0, 1]),
        [pair(OTHER, &pair(NAME, &[1, 2])), pair(NAME, &[48, 0, 1, NAME])].concat(),
        pairs(&[OTHER, 9, 10], &[0, 0, 0]),
        [pair(48, &[49, 0, 0]), pair(49, &[48, 0, 1]), pair(NAME, &[NAME, NAME])].concat(),
    ]
}

/// What is malformed where a field is due; the file ends behind it, or more pairs follow.
pub struct Malformed {
    bytes: Vec<u8>,
    sheet_due: bool,
    ends: bool,
}

/// In a pair of this name. Some are malformed in two ways.
pub fn malformed(name: u8) -> Vec<Malformed> {
    let mut all = Vec::new();
    let mut add = |sheet_due, ends, many: &[&[u8]]| {
        all.extend(many.iter().map(|bytes| Malformed { bytes: bytes.to_vec(), sheet_due, ends }));
    };
    // a name is due: header short, body short, with a tag not due
    add(false, true, &[&[48], &[48, 0], &[49], &[47, 0], &[48, 0, 1], &[48, 0, 0], &[49, 0, 0], &[49, 0, 1]]);
    add(false, true, &[&[48, 0, 2, name], &[48, 1, 0, name], &[48, 1, 1, name], &[50, 0, 9, name]]);
    // tag not due, length, body short though more follows, no name at all
    add(false, false, &[&[49, 0, 1, name], &[47, 0, 1, name], &[0, 0, 1, name], &[176, 0, 1, name], &[49, 0, 0]]);
    add(false, false, &[&[0, 0, 2, name, name], &[48, 0, 2, name, name], &[48, 0, 3, 1, name, name], &[48, 0, 0]]);
    add(false, false, &[&[48, 1, 0, name], &[49, 255, 255, name], &[]]);
    // a sheet is due: absent, header short, body short, with a tag not due
    add(true, true, &[&[], &[49], &[49, 0], &[48], &[48, 0], &[49, 0, 1], &[49, 0, 3, 1, 2], &[49, 1, 0, 1, 2]]);
    add(true, true, &[&[49, 1, 1, 1], &[48, 0, 1], &[48, 0, 1, name], &[48, 0, 2, 1, 2], &[48, 0, 9, 1]]);
    add(true, true, &[&[50, 0, 9, 1]]);
    // tag not due, body short though more follows, no sheet at all
    add(true, false, &[&[48, 0, 1, name], &[48, 0, 0], &[50, 0, 2, 1, 2], &[0, 0, 0], &[177, 0, 1, 5]]);
    add(true, false, &[&[49, 255, 255], &[48, 1, 0], &[]]);
    all
}

/// Three pairs or more, and what is malformed in one of them.
pub fn with_malformed(names: &[u8; 4], at: usize, malformed: &Malformed) -> Vec<u8> {
    let mut file = Vec::new();
    for (index, &name) in names[..3.max(at + 1)].iter().enumerate() {
        let sheet = field(49, &sheet([2, 0, 3, 1][index], name));
        if index != at {
            file.extend([field(48, &[name]), sheet].concat());
            continue;
        }
        if malformed.sheet_due {
            file.extend(field(48, &[name]));
        }
        file.extend(&malformed.bytes);
        if malformed.ends {
            break;
        }
        if !malformed.sheet_due {
            file.extend(sheet);
        }
    }
    file
}
