//! Runs the tool once, on an input, and takes what it does.

const COMMAND: &str = "HOZBANTIR_TOOL";

pub struct Done {
    /// None if a signal ended it.
    pub status: Option<i32>,
    pub output: Vec<u8>,
    /// What it complained of, for those who read why a check failed.
    complaints: String,
}

/// The tool reads standard input where it is given the word `-`.
pub fn run(words: &[&str], input: &[u8]) -> Result<Done, String> {
    let output = calls::run(COMMAND, words, input)?;
    Ok(Done {
        status: output.status.code(),
        output: output.stdout,
        complaints: String::from_utf8_lossy(&output.stderr).into_owned(),
    })
}

impl Done {
    pub fn expect_status(&self, wanted: i32) -> Result<(), String> {
        if self.status == Some(wanted) {
            return Ok(());
        }
        let ended = match self.status {
            Some(status) => format!("status {status}"),
            None => "a signal".to_string(),
        };
        Err(format!(
            "ended with {ended}, wanted status {wanted}\n{}",
            self.complaints
        ))
    }

    /// Whether a refusal writes nothing, and says this among other things.
    pub fn expect_words(&self, wanted: &str) -> Result<(), String> {
        if !self.output.is_empty() {
            return Err("something was written all the same".to_string());
        }
        if self.complaints.contains(wanted) {
            return Ok(());
        }
        Err(format!("'{wanted}' is not in: {}", self.complaints))
    }
}

/// What the tool writes where it has to succeed.
pub fn output(words: &[&str], input: &[u8]) -> Result<Vec<u8>, String> {
    let name = words.join(" ");
    let done = run(words, input)?;
    done.expect_status(0)
        .map_err(|why| format!("{name}: {why}"))?;
    Ok(done.output)
}

/// The same, as text.
pub fn printed(words: &[&str], input: &[u8]) -> Result<String, String> {
    String::from_utf8(output(words, input)?).map_err(|error| error.to_string())
}
