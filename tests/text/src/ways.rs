//! Counts the texts that were written in each of the ways, so that a run shows what it tried.

use std::collections::HashSet;

use crate::case::Case;
use crate::names;
use crate::writer::BYTE_ORDER_MARK;

type Way = (&'static str, fn(&Case, &str) -> bool);

const WAYS: [Way; 13] = [
    ("begin with a byte-order mark", |_, text| {
        text.starts_with(BYTE_ORDER_MARK)
    }),
    ("have lines that end in LF alone", |_, text| {
        has_plain_newline(text)
    }),
    ("have lines that end in CR LF", |_, text| {
        text.contains("\r\n")
    }),
    ("end without a newline", |_, text| !text.ends_with('\n')),
    ("carry lines on before LF", |_, text| text.contains("\\\n")),
    ("carry lines on before CR LF", |_, text| {
        text.contains("\\\r\n")
    }),
    ("have comments behind words", |_, text| {
        text.contains("\t#") || text.contains(" #")
    }),
    ("have tabs between words", |_, text| text.contains('\t')),
    ("have zeros in front of numbers", |_, text| {
        text.split_whitespace()
            .any(|word| is_number(word) && word.trim_start_matches('-').starts_with("00"))
    }),
    ("have a negative zero", |_, text| {
        text.split_whitespace().any(|word| {
            is_number(word) && word.starts_with('-') && word.trim_matches(['-', '0']).is_empty()
        })
    }),
    ("have names of 63 characters", |case, _| {
        case.names.iter().any(|name| name.len() == names::MOST)
    }),
    ("have names that differ by case alone", |case, _| {
        folded(case.names.iter().map(|name| name.to_ascii_lowercase())) < case.names.len()
    }),
    (
        "have long names that differ in the last character alone",
        |case, _| {
            let long = case.names.iter().filter(|name| name.len() > 20);
            folded(long.clone().map(|name| name[..name.len() - 1].to_string())) < long.count()
        },
    ),
];

#[derive(Default)]
pub struct Ways {
    texts: usize,
    counts: [usize; WAYS.len()],
}

impl Ways {
    pub fn look_at(&mut self, case: &Case) {
        let text = String::from_utf8_lossy(&case.text);
        self.texts += 1;
        for (count, (_, holds)) in self.counts.iter_mut().zip(WAYS) {
            *count += usize::from(holds(case, &text));
        }
    }

    /// Prints the counts, and says which ways were never taken.
    pub fn print(&self) -> Vec<&'static str> {
        println!("of {} texts", self.texts);
        for (count, (name, _)) in self.counts.iter().zip(WAYS) {
            println!("{count:>9}  {name}");
        }
        let all = self.counts.iter().zip(WAYS);
        let missed = all.filter(|(&count, _)| count == 0);
        missed.map(|(_, (name, _))| name).collect()
    }
}

fn has_plain_newline(text: &str) -> bool {
    text.replace("\r\n", "").contains('\n')
}

fn is_number(word: &str) -> bool {
    let digits = word.strip_prefix('-').unwrap_or(word);
    !digits.is_empty() && digits.bytes().all(|byte| byte.is_ascii_digit())
}

/// How many are left when equal ones count once.
fn folded(names: impl Iterator<Item = String>) -> usize {
    names.collect::<HashSet<String>>().len()
}
