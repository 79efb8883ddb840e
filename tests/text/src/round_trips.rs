//! Text to bytes and back.

use crate::case::Case;
use crate::score::{equal_bytes, equal_texts, Outcome};
use crate::tool::{output, printed};
use crate::writer;

/// `pack` of the text is what the encoder writes.
pub fn text(case: &Case) -> Option<Outcome> {
    let check = || equal_bytes(&output(&["pack", "-"], &case.text)?, &case.file);
    Some(check())
}

/// A netlist has no names: component 7 becomes `n7`.
pub fn netlist(case: &Case) -> Option<Outcome> {
    let check = || {
        let text = printed(&["unpack", "-"], &case.file)?;
        let numbered: Vec<String> = (0..case.names.len()).map(|at| format!("n{at}")).collect();
        equal_texts(&heads(&text), &wanted_heads(case, &numbered))?;
        equal_bytes(&output(&["pack", "-"], text.as_bytes())?, &case.file)
    };
    Some(check())
}

pub fn canonical(case: &Case) -> Option<Outcome> {
    let check = || {
        let text = printed(&["unpack", "-"], &case.text)?;
        equal_texts(&heads(&text), &wanted_heads(case, &case.names))?;
        equal_texts(&printed(&["unpack", "-"], text.as_bytes())?, &text)?;
        equal_bytes(&output(&["pack", "-"], text.as_bytes())?, &case.file)
    };
    Some(check())
}

/// Kind and name of each component, a line each. The canonical form indents only lines carried on.
fn heads(text: &str) -> String {
    let mut heads = String::new();
    for line in text.lines().filter(|line| !line.starts_with(' ')) {
        let mut words = line.split_whitespace();
        let (kind, name) = (words.next().unwrap_or(""), words.next().unwrap_or(""));
        heads.push_str(&format!("{kind} {name}\n"));
    }
    heads
}

fn wanted_heads(case: &Case, names: &[String]) -> String {
    let parts = case.netlist.parts.iter().zip(names);
    parts
        .map(|(part, name)| format!("{} {name}\n", writer::word(part.kind)))
        .collect()
}
