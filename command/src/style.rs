//! Colours of a terminal, which never say anything alone.
use std::env;

#[derive(Clone, Copy)]
pub struct Style {
    on: bool,
}

/// The terminal's colours for strands, in the order of the pictures' colours as near as it has them.
const STRANDS: [u8; 8] = [39, 34, 31, 32, 35, 33, 36, 90];

impl Style {
    /// Colours for a terminal, unless NO_COLOR is set, CLICOLOR is 0 or it is a dumb one.
    pub fn of(terminal: bool) -> Style {
        let asked_not = env::var_os("NO_COLOR").is_some_and(|value| !value.is_empty())
            || env::var_os("CLICOLOR").is_some_and(|value| value == "0");
        let dumb = env::var_os("TERM").is_none_or(|term| term == "dumb");
        Style { on: terminal && !asked_not && !dumb }
    }

    fn painted(self, code: u8, text: &str) -> String {
        if self.on && !text.is_empty() { format!("\x1b[{code}m{text}\x1b[0m") } else { text.to_string() }
    }

    pub fn bold(self, text: &str) -> String {
        self.painted(1, text)
    }

    pub fn red(self, text: &str) -> String {
        self.painted(31, text)
    }

    pub fn green(self, text: &str) -> String {
        self.painted(32, text)
    }

    pub fn yellow(self, text: &str) -> String {
        self.painted(33, text)
    }

    /// A part of a strand, by the source's number from 1.
    pub fn strand(self, source: usize, text: &str) -> String {
        self.painted(STRANDS[(source + STRANDS.len() - 1) % STRANDS.len()], text)
    }
}
