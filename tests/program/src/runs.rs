//! Runs the program once, with an input, and takes what it prints.

const COMMAND: &str = "HOZBANTIR_BUDGET";

pub fn printed(input: &[u8]) -> Result<String, String> {
    let output = calls::run(COMMAND, &[], input)?;
    String::from_utf8(output.stdout).map_err(|error| error.to_string())
}

/// The first line that differs.
pub fn difference(printed: &str, wanted: &str) -> String {
    let lines = printed.lines().zip(wanted.lines()).enumerate();
    match lines
        .into_iter()
        .find(|(_, (printed, wanted))| printed != wanted)
    {
        Some((at, (printed, wanted))) => {
            format!("line {}: printed '{printed}', wanted '{wanted}'", at + 1)
        }
        None => format!("printed {} bytes, wanted {}", printed.len(), wanted.len()),
    }
}
