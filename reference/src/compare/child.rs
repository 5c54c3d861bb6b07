//! Runs of a program as a child process.

use std::fmt;
use std::io::{self, ErrorKind, Write};
use std::path::Path;
use std::process::{Command, Stdio};

/// What a program wrote, and its exit status if it had one.
#[derive(Debug)]
pub struct Answer {
    output: Vec<u8>,
    status: Option<i32>,
}

impl Answer {
    pub fn is(&self, expected: &[u8]) -> bool {
        self.output == expected && self.status == Some(0)
    }
}

impl fmt::Display for Answer {
    fn fmt(&self, to: &mut fmt::Formatter<'_>) -> fmt::Result {
        write!(to, "{}", self.output.escape_ascii())?;
        match self.status {
            Some(0) => Ok(()),
            Some(status) => write!(to, " (exit status {status})"),
            None => write!(to, " (no exit status)"),
        }
    }
}

/// Runs the program with the file on its standard input.
pub fn answer(path: &Path, file: &[u8]) -> io::Result<Answer> {
    let mut child = Command::new(path)
        .stdin(Stdio::piped())
        .stdout(Stdio::piped())
        .stderr(Stdio::null())
        .spawn()
        .map_err(|error| io::Error::new(error.kind(), format!("{}: {error}", path.display())))?;
    if let Some(mut stdin) = child.stdin.take() {
        match stdin.write_all(file) {
            // A program need not read a file that is too long to its end.
            Err(error) if error.kind() != ErrorKind::BrokenPipe => return Err(error),
            _ => {}
        }
    }
    let done = child.wait_with_output()?;
    Ok(Answer { output: done.stdout, status: done.status.code() })
}
