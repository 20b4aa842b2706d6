//! What ends a run: a refusal of the library, a command that was not understood, a file that failed.
use crate::json::{self, Value, object, optional};
use crate::library::Refusal;
use crate::style::Style;
use crate::{system, text};
use std::fmt;
use std::io::{self, IsTerminal, Write};
use std::path::{Path, PathBuf};
use std::process::ExitCode;

pub enum Failure {
    /// The library refused the call; with the culprit in the user's words, where it is known.
    Refused(Refusal, Option<String>),
    /// Presets of a book by their numbers, each with the refusal of its record and the culprit; and what else is to
    /// say.
    Presets(Vec<(usize, Refusal, Option<String>)>, Option<String>),
    /// Not understood; with the subcommand, if one was named.
    Usage(String, Option<&'static str>),
    /// A file, and what went wrong.
    File(PathBuf, io::Error),
    /// A line of a file that was read, and what is wrong there.
    Line(At, Box<Failure>),
    /// A stream or another program by its name, and what went wrong.
    Stream(&'static str, io::Error),
    /// Something that the command itself will not do, in a sentence.
    Unwilling(String),
    /// A file was written, and what failed behind that: whoever asked must not do it again unseen.
    Written(PathBuf, String),
    /// The step of a rewriting where the library's lists and its single rewrite part. It is proved that they do not.
    Replay(usize),
    /// Standard output has no reader any more.
    ClosedPipe,
}

pub const STANDARD_INPUT: &str = "standard input";
pub const STANDARD_OUTPUT: &str = "standard output";

/// How a run ends for a script.
pub const REFUSED: u8 = 1;
pub const NOT_UNDERSTOOD: u8 = 2;
/// A failure with `--status`, where 1 is a no.
pub const FAILED_ASKED_FOR_STATUS: u8 = 3;
/// The file is written, but that is not confirmed.
pub const NOT_CONFIRMED: u8 = 4;

/// What was asked for, whatever came of it.
#[derive(Clone, Copy)]
pub struct Asked {
    /// By its name, if there is such a subcommand.
    pub subcommand: Option<&'static str>,
    pub for_json: bool,
    pub for_status: bool,
}

/// A line of a file, from 1.
#[derive(Clone)]
pub struct At {
    /// The file, to be shown.
    pub file: String,
    /// The same for JSON.
    pub named: Value,
    pub line: usize,
}

impl Failure {
    pub fn usage(problem: impl Into<String>, subcommand: Option<&'static str>) -> Failure {
        Failure::Usage(problem.into(), subcommand)
    }

    pub fn file(path: &Path, error: io::Error) -> Failure {
        Failure::File(path.to_path_buf(), error)
    }

    /// The refusal of a call, with what is to say about it.
    pub fn refused(refusal: Refusal, culprit: impl Into<String>) -> Failure {
        Failure::Refused(refusal, Some(culprit.into()))
    }

    /// Standard output failed when it was to say that a file is written.
    pub fn unsaid(self, file: &Path) -> Failure {
        match self {
            Failure::File(_, error) | Failure::Stream(_, error) => {
                let failed = format!("standard output, which was to say so, failed: {error}");
                Failure::Written(file.to_path_buf(), failed)
            }
            other => other,
        }
    }

    /// A file has its name, but the system does not say that this is on the disk.
    pub fn not_on_disk(file: &Path, error: &io::Error) -> Failure {
        let failed = format!("the system does not confirm that it is on the disk: {error}; look before you repeat it");
        Failure::Written(file.to_path_buf(), failed)
    }

    /// What went wrong, as a part of another sentence.
    pub fn in_a_line(&self) -> String {
        self.to_string().trim_start_matches("winnathey: ").trim_end().to_string()
    }

    /// The exit status. A reader that has gone away wanted no more, which is no failure.
    pub fn status(&self, asked_for_status: bool) -> u8 {
        match self {
            Failure::ClosedPipe => 0,
            Failure::Usage(..) => NOT_UNDERSTOOD,
            Failure::Written(..) => NOT_CONFIRMED,
            _ if asked_for_status => FAILED_ASKED_FOR_STATUS,
            _ => REFUSED,
        }
    }

    /// Says what went wrong on standard error, or as JSON on standard output with the warnings that came before, and
    /// gives the exit status.
    pub fn told(self, asked: Asked, warnings: Option<(&'static str, Value)>) -> ExitCode {
        let status = self.status(asked.for_status);
        if asked.for_json && system::was_open(1) && !matches!(self, Failure::ClosedPipe) {
            let subcommand = [("subcommand", optional(asked.subcommand))];
            let fields = subcommand.into_iter().chain(self.fields(status)).chain(warnings);
            let told = Value::Object(fields.collect());
            let written = writeln!(io::stdout(), "{told}").and_then(|()| io::stdout().flush());
            if written.is_ok() {
                return ExitCode::from(status);
            }
        }
        let label = Style::of(io::stderr().is_terminal()).red("winnathey");
        // If standard error fails too there is nobody left to tell.
        let _ = write!(io::stderr(), "{}", self.to_string().replace("winnathey:", &format!("{label}:")));
        ExitCode::from(status)
    }

    /// For JSON.
    fn fields(&self, status: u8) -> Vec<(&'static str, Value)> {
        let mut fields = vec![("ok", false.into()), ("status", status.into())];
        match self {
            Failure::Refused(refusal, culprit) => fields.extend(refused(*refusal, culprit)),
            Failure::Presets(presets, hint) => {
                let preset = |(number, refusal, culprit): &(usize, Refusal, Option<String>)| {
                    let mut fields = vec![("preset", (*number).into())];
                    fields.extend(refused(*refusal, culprit));
                    Value::Object(fields)
                };
                fields.push(("presets", Value::List(presets.iter().map(preset).collect())));
                fields.push(("hint", optional(hint.as_ref())));
            }
            Failure::Usage(problem, _) => fields.push(("usage", problem.into())),
            Failure::File(path, error) => {
                fields.push(("file", json::file(path)));
                fields.push(("error", error.to_string().into()));
            }
            Failure::Stream(name, error) => {
                fields.push(("file", (*name).into()));
                fields.push(("error", error.to_string().into()));
            }
            Failure::Line(at, failure) => {
                let of_line = [("file", at.named.clone()), ("line", at.line.into())];
                fields = failure.fields(status).into_iter().chain(of_line).collect();
            }
            other => {
                if let Failure::Written(file, _) = other {
                    fields.push(("written", json::file(file)));
                }
                fields.push(("error", other.message().into()));
            }
        }
        fields
    }

    fn message(&self) -> String {
        match self {
            Failure::Unwilling(message) => message.clone(),
            Failure::Written(file, failed) => format!("{} is written, but {failed}", text::file(file)),
            Failure::Replay(step) => format!("the lists and the single rewrite part at step {step}"),
            _ => String::new(),
        }
    }
}

/// A refusal for JSON.
pub fn refused(refusal: Refusal, culprit: &Option<String>) -> [(&'static str, Value); 1] {
    let value = object([
        ("number", refusal.number().into()),
        ("meaning", refusal.message().to_string().into()),
        ("culprit", optional(culprit.as_ref())),
    ]);
    [("refused", value)]
}

/// A refusal as the library words it, below it the culprit.
fn write_refusal(f: &mut fmt::Formatter<'_>, about: &str, refusal: Refusal, culprit: &Option<String>) -> fmt::Result {
    writeln!(f, "winnathey: {about}{refusal}")?;
    culprit.as_ref().map_or(Ok(()), |culprit| writeln!(f, "  {culprit}"))
}

impl fmt::Display for Failure {
    fn fmt(&self, f: &mut fmt::Formatter<'_>) -> fmt::Result {
        match self {
            Failure::Refused(refusal, culprit) => write_refusal(f, "", *refusal, culprit),
            Failure::Presets(presets, hint) => {
                for (number, refusal, culprit) in presets {
                    write_refusal(f, &format!("preset {number}: "), *refusal, culprit)?;
                }
                hint.as_ref().map_or(Ok(()), |hint| writeln!(f, "winnathey: {hint}"))
            }
            Failure::Usage(problem, subcommand) => {
                let about = subcommand.map_or(String::new(), |name| format!(" {name}"));
                writeln!(f, "winnathey{about}: {problem}\nwinnathey{about} --help says more")
            }
            Failure::File(path, error) => writeln!(f, "winnathey: '{}': {error}", text::file(path)),
            Failure::Stream(name, error) => writeln!(f, "winnathey: {name}: {error}"),
            Failure::Line(at, failure) => {
                let about = format!("{}, line {}: ", at.file, at.line);
                match &**failure {
                    Failure::Refused(refusal, culprit) => write_refusal(f, &about, *refusal, culprit),
                    other => writeln!(f, "winnathey: {about}{}", other.in_a_line()),
                }
            }
            Failure::ClosedPipe => Ok(()),
            other => writeln!(f, "winnathey: {}", other.message()),
        }
    }
}

impl From<Refusal> for Failure {
    fn from(refusal: Refusal) -> Failure {
        Failure::Refused(refusal, None)
    }
}

/// Of standard output: all else names its file.
impl From<io::Error> for Failure {
    fn from(error: io::Error) -> Failure {
        match error.kind() {
            io::ErrorKind::BrokenPipe => Failure::ClosedPipe,
            _ => Failure::Stream(STANDARD_OUTPUT, error),
        }
    }
}
