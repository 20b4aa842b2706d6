//! Where an answer goes: standard output, by way of a pager where that is a terminal; as text or as JSON.
use crate::json::Value;
use crate::style::Style;
use crate::system;
use std::env;
use std::io::{self, BufWriter, IsTerminal, Write};
use std::process::{Child, Command, Stdio};

pub struct Out {
    /// Standard output or the pager; opened at the first byte.
    writer: Option<BufWriter<Box<dyn Write>>>,
    pager: Option<Child>,
    /// Whether a long answer may go to a pager.
    pub paged: bool,
    /// The answer is one JSON object.
    pub json: bool,
    /// Nothing is said of a success in words; warnings still are.
    pub quiet: bool,
    pub style: Style,
    /// The columns that a line may take.
    pub width: usize,
    /// Those that the answer as JSON is to have, and all that were said.
    warnings: Vec<String>,
    pub said: Vec<String>,
}

/// The width where nothing tells one, and the least that is used.
const WIDTH: usize = 80;
const NARROW: usize = 40;

impl Out {
    pub fn new(json: bool) -> Out {
        let terminal = io::stdout().is_terminal();
        let told = env::var("COLUMNS").ok().and_then(|columns| columns.parse().ok());
        let width = told.or_else(|| system::terminal_columns().filter(|_| terminal)).unwrap_or(WIDTH).max(NARROW);
        let style = Style::of(terminal && !json);
        let paged = terminal && !json;
        let (warnings, said) = (Vec::new(), Vec::new());
        Out { writer: None, pager: None, paged, json, quiet: false, style, width, warnings, said }
    }

    /// Something to know beside the answer: on standard error, or in the JSON object.
    pub fn warn(&mut self, warning: String) {
        self.said.push(warning.clone());
        if self.json { self.warnings.push(warning) } else { warn_at_once(&warning) }
    }

    /// The answer as a JSON object of one line: the subcommand, that it is an answer, its fields, warnings if any.
    pub fn answer(&mut self, subcommand: &'static str, fields: Vec<(&'static str, Value)>) -> io::Result<()> {
        let mut all = vec![("subcommand", subcommand.into()), ("ok", true.into())];
        all.extend(fields);
        all.extend(self.taken_warnings());
        writeln!(self, "{}", Value::Object(all))
    }

    /// The front of an answer whose last fields are written piece by piece, without the brace at its end.
    pub fn front(&mut self, subcommand: &'static str, fields: Vec<(&'static str, Value)>) -> String {
        let mut all = vec![("subcommand", subcommand.into()), ("ok", true.into())];
        all.extend(fields);
        all.extend(self.taken_warnings());
        let mut front = Value::Object(all).to_string();
        front.pop();
        front
    }

    /// The warnings as a field, where there are any.
    pub fn taken_warnings(&mut self) -> Option<(&'static str, Value)> {
        let warnings = std::mem::take(&mut self.warnings);
        (!warnings.is_empty()).then(|| ("warnings", Value::List(warnings.into_iter().map(Value::from).collect())))
    }

    fn writer(&mut self) -> &mut BufWriter<Box<dyn Write>> {
        if self.writer.is_none() {
            self.pager = if self.paged { pager() } else { None };
            let to: Box<dyn Write> = match self.pager.as_mut().and_then(|pager| pager.stdin.take()) {
                Some(stdin) => Box::new(stdin),
                None => Box::new(io::stdout().lock()),
            };
            self.writer = Some(BufWriter::new(to));
        }
        self.writer.as_mut().expect("just opened")
    }

    /// Brings everything out, and waits for the reader at a pager.
    pub fn end(&mut self) -> io::Result<()> {
        let flushed = self.flush();
        drop(self.writer.take());
        if let Some(mut pager) = self.pager.take() {
            pager.wait()?;
        }
        flushed
    }
}

fn warn_at_once(warning: &str) {
    let label = Style::of(io::stderr().is_terminal()).yellow("winnathey: warning:");
    // If standard error fails there is nobody to warn.
    let _ = writeln!(io::stderr(), "{label} {warning}");
}

impl Write for Out {
    fn write(&mut self, bytes: &[u8]) -> io::Result<usize> {
        self.writer().write(bytes)
    }

    fn flush(&mut self) -> io::Result<()> {
        self.writer.as_mut().map_or(Ok(()), |writer| writer.flush())
    }
}

/// `less`, or what PAGER names, set to show less than a screenful at once. The shell runs it, as for other programs:
/// PAGER may have arguments in quotes, a variable or a pipe. None where PAGER is empty or `cat`, or where there is no
/// such program.
fn pager() -> Option<Child> {
    let named = env::var_os("PAGER").unwrap_or_else(|| "less".into());
    if named.to_string_lossy().trim().is_empty() || named == "cat" {
        return None;
    }
    // Before the answer goes there: what the shell cannot start would swallow it.
    let first = named.to_string_lossy().split_whitespace().next().map(str::to_string)?;
    let is_plain = first.bytes().all(|byte| byte.is_ascii_alphanumeric() || b"/._+-".contains(&byte));
    if is_plain && !can_run(&first) {
        return None;
    }
    let mut command = Command::new("/bin/sh");
    command.arg("-c").arg(named).stdin(Stdio::piped());
    if env::var_os("LESS").is_none() {
        command.env("LESS", "FRX");
    }
    command.spawn().ok()
}

/// Whether the shell finds a program of that name.
fn can_run(program: &str) -> bool {
    let mut asked = Command::new("/bin/sh");
    asked.args(["-c", "command -v -- \"$1\"", "sh", program]);
    asked.stdin(Stdio::null()).stdout(Stdio::null()).stderr(Stdio::null());
    asked.status().is_ok_and(|status| status.success())
}
