//! Commands that the environment names, as it is not known here how x86-64 programs are started.

use std::env;
use std::io::Write;
use std::process::{Command, Output, Stdio};
use std::thread;

/// The command of a variable, with its input and output to be written and read.
///
/// One word to a line if there are several lines, so that words may have spaces in them.
pub fn command(variable: &str) -> Result<Command, String> {
    let text =
        env::var(variable).map_err(|_| format!("{variable} is not set; tests/run sets it"))?;
    let separator = if text.contains('\n') { '\n' } else { ' ' };
    let mut words = text.split(separator).filter(|word| !word.is_empty());
    let program = words.next().ok_or(format!("{variable} is empty"))?;
    let mut command = Command::new(program);
    command.args(words);
    command.stdin(Stdio::piped()).stdout(Stdio::piped());
    Ok(command)
}

/// Runs the command of a variable once, with some further words and an input, to its end.
pub fn run(variable: &str, words: &[&str], input: &[u8]) -> Result<Output, String> {
    let mut command = command(variable)?;
    command.args(words).stderr(Stdio::piped());
    let mut child = command
        .spawn()
        .map_err(|error| format!("{variable}: {error}"))?;
    let stdin = child.stdin.take();
    let input = input.to_vec();
    // From another thread, as it may print before it has read all.
    let writer = thread::spawn(move || {
        if let Some(mut stdin) = stdin {
            // It may stop reading before the end, which is no failure by itself.
            let _ = stdin.write_all(&input);
        }
    });
    let output = child
        .wait_with_output()
        .map_err(|error| error.to_string())?;
    writer.join().map_err(|_| "the writer failed".to_string())?;
    Ok(output)
}
