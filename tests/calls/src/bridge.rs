//! The bridge: a process that is started with the first call and stays for all others.

use std::cell::RefCell;
use std::io::{self, BufReader, Read, Write};
use std::process::{exit, Child, ChildStdin, ChildStdout};

use crate::command;

/// Answer and measured number of eight bytes each, guards kept, inputs kept.
const HEAD: usize = 18;

pub struct Reply {
    pub answer: u64,
    pub measured: u64,
    pub kept: bool,
    pub contents: Vec<u8>,
}

/// Times differ from call to call; what the call left is to be the same.
impl PartialEq for Reply {
    fn eq(&self, other: &Reply) -> bool {
        self.answer == other.answer && self.kept == other.kept && self.contents == other.contents
    }
}

pub struct Bridge {
    process: Child,
    requests: ChildStdin,
    replies: BufReader<ChildStdout>,
}

thread_local! {
    static BRIDGE: RefCell<Bridge> = RefCell::new(Bridge::start("HOZBANTIR_BRIDGE").unwrap_or_else(stop));
}

/// Sends a request, and takes the reply with so many bytes of contents.
pub fn ask(request: &[u8], length: usize, what: impl Fn() -> String) -> Reply {
    BRIDGE.with_borrow_mut(|bridge| bridge.ask_for(request, length, what))
}

impl Bridge {
    pub fn start(variable: &str) -> Result<Bridge, String> {
        let mut command = command(variable)?;
        let program = command.get_program().display().to_string();
        let process = command.spawn();
        let process = process.map_err(|error| format!("bridge: {program}: {error}"))?;
        Bridge::of(process).ok_or("bridge: no input or output".to_string())
    }

    fn of(mut process: Child) -> Option<Bridge> {
        let requests = process.stdin.take()?;
        let replies = BufReader::with_capacity(1 << 17, process.stdout.take()?);
        Some(Bridge {
            process,
            requests,
            replies,
        })
    }

    pub fn ask_for(&mut self, request: &[u8], length: usize, what: impl Fn() -> String) -> Reply {
        let reply = self.ask(request, length);
        reply.unwrap_or_else(|error| stop(self.farewell(&error, &what())))
    }

    fn ask(&mut self, request: &[u8], length: usize) -> io::Result<Reply> {
        self.requests.write_all(request)?;
        let mut head = [0; HEAD];
        self.replies.read_exact(&mut head)?;
        let mut contents = vec![0; length];
        self.replies.read_exact(&mut contents)?;
        Ok(Reply {
            answer: number(&head[..8]),
            measured: number(&head[8..16]),
            kept: head[16..] == [1, 1],
            contents,
        })
    }

    /// Why the bridge gave no reply. A call that went wrong shows in the status of the process.
    fn farewell(&mut self, error: &io::Error, what: &str) -> String {
        match self.process.wait() {
            Ok(status) => format!("bridge: ended at {what} with {status}"),
            Err(_) => format!("bridge: broke off at {what}: {error}"),
        }
    }
}

fn number(bytes: &[u8]) -> u64 {
    bytes
        .iter()
        .fold(0, |number, &byte| number << 8 | u64::from(byte))
}

/// Without the bridge there is nothing to test.
pub fn stop<T>(message: String) -> T {
    eprintln!("{message}");
    exit(1)
}
