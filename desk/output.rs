//! What a command prints: results on standard output, messages on standard error.

use crate::stop::{Result, Stop};
use std::fmt::Display;
use std::io::{self, ErrorKind, IsTerminal, Write};

pub struct Output {
    text: String,
    colour: bool,
}

#[derive(Clone, Copy)]
pub enum Mood {
    Good,
    Bad,
}

impl Output {
    pub fn new() -> Output {
        let plain = std::env::var_os("NO_COLOR").is_some_and(|value| !value.is_empty());
        Output { text: String::new(), colour: !plain && io::stdout().is_terminal() }
    }

    pub fn line(&mut self, line: impl Display) {
        self.text += &format!("{line}\n");
    }

    /// A word in green or red on a terminal, and as it is anywhere else.
    pub fn tinted(&self, mood: Mood, word: &str) -> String {
        let code = match mood {
            Mood::Good => 32,
            Mood::Bad => 31,
        };
        if self.colour {
            format!("\x1b[{code}m{word}\x1b[0m")
        } else {
            word.to_string()
        }
    }

    /// Writes what was printed so far. A reader that has gone away does not matter.
    pub fn flush(&mut self) -> Result<()> {
        standard_output(std::mem::take(&mut self.text).as_bytes())
    }
}

pub fn standard_output(bytes: &[u8]) -> Result<()> {
    let mut out = io::stdout().lock();
    match out.write_all(bytes).and_then(|()| out.flush()) {
        Err(error) if error.kind() != ErrorKind::BrokenPipe => {
            Err(Stop::Files(format!("standard output: {error}")))
        }
        _ => Ok(()),
    }
}

/// Says something that is no result. Where nobody can hear it, nothing is lost.
pub fn note(message: impl Display) {
    let _ = writeln!(io::stderr(), "{message}");
}
