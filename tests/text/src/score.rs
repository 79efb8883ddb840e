//! Counts the cases of each group of checks, and keeps the first that failed.

use std::process::ExitCode;

use crate::case::Case;
use crate::ways::Ways;

/// Why something is not as it should be.
pub type Outcome = Result<(), String>;

/// None where the check does not apply.
pub type Check = fn(&Case) -> Option<Outcome>;

/// So many lines of a text are shown.
const SHOWN: usize = 60;

struct Group {
    name: &'static str,
    check: Check,
    cases: usize,
    failed: usize,
    first: String,
}

pub struct Score {
    groups: Vec<Group>,
}

impl Score {
    pub fn new(checks: &[(&'static str, Check)]) -> Score {
        let group = |&(name, check)| Group {
            name,
            check,
            cases: 0,
            failed: 0,
            first: String::new(),
        };
        Score {
            groups: checks.iter().map(group).collect(),
        }
    }

    pub fn check(&mut self, case: &Case) {
        for group in &mut self.groups {
            let Some(outcome) = (group.check)(case) else {
                continue;
            };
            group.cases += 1;
            if let Err(why) = outcome {
                group.failed += 1;
                if group.failed == 1 {
                    group.first = format!("{}: {why}\n{}", case.label, shown(&case.text));
                }
            }
        }
    }

    /// Prints all, and the counts in the last line. A group without a case has shown nothing, and
    /// fails; so does a run that left out a way to write texts.
    pub fn finish(&self, ways: &Ways) -> ExitCode {
        let missed = ways.print();
        let mut passed = 0;
        for group in &self.groups {
            passed += usize::from(group.print());
        }
        if missed.is_empty() {
            passed += 1;
            println!("  passed  texts were written in every way");
        } else {
            println!(
                "  FAILED  no text was written in such a way: {}",
                missed.join("; ")
            );
        }
        let failed = self.groups.len() + 1 - passed;
        println!("{passed} passed, {failed} failed");
        if failed == 0 {
            ExitCode::SUCCESS
        } else {
            ExitCode::FAILURE
        }
    }
}

impl Group {
    fn print(&self) -> bool {
        let Group {
            name,
            cases,
            failed,
            first,
            ..
        } = self;
        let passed = *cases > 0 && *failed == 0;
        if passed {
            println!("  passed  {name}: {cases} circuits");
        } else if *cases == 0 {
            println!("  FAILED  {name}: there was no such circuit");
        } else {
            println!("  FAILED  {name}: {failed} of {cases} circuits, first {first}");
        }
        passed
    }
}

/// A text with its odd bytes to be seen.
fn shown(text: &[u8]) -> String {
    let lines: Vec<&[u8]> = text.split(|&byte| byte == b'\n').collect();
    let mut shown = String::new();
    for line in lines.iter().take(SHOWN) {
        shown.push_str(&format!("    {}\n", line.escape_ascii()));
    }
    if lines.len() > SHOWN {
        shown.push_str(&format!("    and {} lines more\n", lines.len() - SHOWN));
    }
    shown
}

pub fn equal_bytes(written: &[u8], wanted: &[u8]) -> Outcome {
    let pairs = written.iter().zip(wanted);
    let same = pairs
        .take_while(|(written, wanted)| written == wanted)
        .count();
    if same == written.len().max(wanted.len()) {
        return Ok(());
    }
    let (written, wanted) = (written.len(), wanted.len());
    Err(format!(
        "wrote {written} bytes, wanted {wanted}; they differ at byte {same}"
    ))
}

/// Names the first line that differs.
pub fn equal_texts(printed: &str, wanted: &str) -> Outcome {
    if printed == wanted {
        return Ok(());
    }
    let mut lines = printed.lines().zip(wanted.lines()).enumerate();
    Err(
        match lines.find(|(_, (printed, wanted))| printed != wanted) {
            Some((at, (printed, wanted))) => {
                format!("line {}: printed {printed:?}, wanted {wanted:?}", at + 1)
            }
            None => format!("printed {} bytes, wanted {}", printed.len(), wanted.len()),
        },
    )
}
