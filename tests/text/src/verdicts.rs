//! Result files and exit statuses: exactly the circuits that the model calls late are refused.

use crate::case::Case;
use crate::score::{equal_bytes, Outcome};
use crate::tool::{output, run};

const MODES: [(&str, u32); 2] = [("plain", 0), ("even", 1)];

/// From the text and from the netlist alike.
pub fn result(case: &Case) -> Option<Outcome> {
    if case.is_late() {
        return None;
    }
    let check = |(word, mode)| {
        let wanted = wanted_result(case, mode)?;
        let words = ["budget", "--result", "--mode", word, "-"];
        equal_bytes(&output(&words, &case.text)?, &wanted)?;
        equal_bytes(&output(&words, &case.file)?, &wanted)
    };
    Some(MODES.into_iter().try_for_each(check))
}

/// In a mode, as the model writes it.
pub fn wanted_result(case: &Case, mode: u32) -> Result<Vec<u8>, String> {
    let mut room = vec![0; 10 + 13 * case.circuit.len()];
    let written = model::budget(mode, &case.file, &mut room);
    let written = written.map_err(|refusal| format!("the model has {refusal:?}"))?;
    room.truncate(written);
    Ok(room)
}

pub fn late_budget(case: &Case) -> Option<Outcome> {
    if !case.is_late() {
        return None;
    }
    let check = |(word, _)| {
        refused(&["budget", "--mode", word, "--format", "tsv", "-"], case)?;
        refused(&["budget", "--mode", word, "--result", "-"], case)
    };
    Some(MODES.into_iter().try_for_each(check))
}

fn refused(words: &[&str], case: &Case) -> Outcome {
    let done = run(words, &case.text)?;
    done.expect_status(1)?;
    done.expect_words(" is late by ")
}

pub fn check_in_time(case: &Case) -> Option<Outcome> {
    (!case.is_late()).then(|| run(&["check", "-"], &case.text)?.expect_status(0))
}

pub fn check_late(case: &Case) -> Option<Outcome> {
    (case.is_late()).then(|| run(&["check", "-"], &case.text)?.expect_status(1))
}
