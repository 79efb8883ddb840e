//! Names for components: whatever the text form allows, and names that are easily mixed up.

use std::collections::HashSet;

use circuits::Random;

pub const MOST: usize = 63;

/// The words of the form, which are no names.
const RESERVED: [&str; 10] = [
    "input", "gate", "output", "at", "by", "delay", "early", "from", "linear", "pad",
];

/// Names as they stand in schematics, and some that careless code may take for something else.
const SEEN: [&str; 24] = [
    "/RAS", "RAS#", "~OE", "1Y", "D[3]", "U7.12", "n0", "n1", "n2", "n10", "Input", "FROM", "at1",
    "delay-", "1e5", "0x10", "12ns", "%s", "%n%d", "<b>", "&lt", "a&b", "x]]>", "a--b",
];

const LETTERS: &[u8] = b"abcdefghijklmnopqrstuvwxyzABCDEFGHIJKLMNOPQRSTUVWXYZ_";
const OTHERS: &[u8] = b"0123456789-./~!*#$@%&|^?[]<>";

/// So many names, no two the same.
pub fn distinct(random: &mut Random, count: usize) -> Vec<String> {
    let mut names: Vec<String> = Vec::new();
    let mut taken = HashSet::new();
    while names.len() < count {
        let name = name(random, &names);
        if is_name(&name) && taken.insert(name.clone()) {
            names.push(name);
        }
    }
    names
}

/// The rule of the form; what is made here may still break it.
fn is_name(name: &str) -> bool {
    let is_letter = |byte| LETTERS.contains(&byte);
    (1..=MOST).contains(&name.len())
        && name.bytes().any(is_letter)
        && !name.starts_with(['-', '#'])
        && !RESERVED.contains(&name)
}

fn name(random: &mut Random, before: &[String]) -> String {
    match random.below(8) {
        0 => random.pick(&SEEN).to_string(),
        1 => format!("n{}", random.below(2_000)),
        2..=4 if !before.is_empty() => {
            let like = &before[random.below(before.len())];
            alike(random, like)
        }
        _ => fresh(random),
    }
}

fn fresh(random: &mut Random) -> String {
    let length = match random.below(6) {
        0 => MOST,
        1 => 1 + random.below(MOST),
        _ => 1 + random.below(9),
    };
    (0..length).map(|_| character(random)).collect()
}

fn character(random: &mut Random) -> char {
    let set = random.pick(&[LETTERS, OTHERS]);
    char::from(random.pick(set))
}

/// Another name that differs by the case of one letter, or at its end alone.
fn alike(random: &mut Random, name: &str) -> String {
    let mut new: Vec<char> = name.chars().collect();
    let at = random.below(new.len());
    match random.below(4) {
        0 if new[at].is_ascii_lowercase() => new[at] = new[at].to_ascii_uppercase(),
        0 => new[at] = new[at].to_ascii_lowercase(),
        1 => new.push(character(random)),
        2 => {
            new.pop();
        }
        _ => {
            new.pop();
            new.push(character(random));
        }
    }
    new.into_iter().collect()
}
