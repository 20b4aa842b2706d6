//! The arguments of a subcommand, taken apart by the table.
use crate::failure::Failure;
use crate::library::Edition;
use crate::table::{Completes, Opt, Subcommand};
use crate::typed::{Set, TypedRig, Window, Word};
use crate::{books, files, numbers, suggest, text};
use std::collections::VecDeque;
use std::ffi::{OsStr, OsString};
use std::os::unix::ffi::OsStrExt;
use std::path::{Path, PathBuf};
use std::time::Duration;

pub struct Args {
    pub subcommand: &'static Subcommand,
    options: Vec<(&'static Opt, OsString)>,
    operands: VecDeque<Typed>,
}

/// An operand, and the option that stands between it and the one before.
struct Typed {
    text: OsString,
    behind: Option<String>,
}

/// A word, or a window that stands for its normal form.
pub enum Numbers {
    Word(Word),
    Window(Window),
}

impl Args {
    /// `None` where help is asked for. An argument that begins with - and is no number is an option, unless -- came
    /// before; - alone is standard input.
    pub fn parse(subcommand: &'static Subcommand, arguments: Vec<OsString>) -> Result<Option<Args>, Failure> {
        let mut args = Args { subcommand, options: Vec::new(), operands: VecDeque::new() };
        let mut rest = arguments.into_iter();
        let mut behind = None;
        while let Some(argument) = rest.next() {
            match argument.as_bytes() {
                b"--" => {
                    for text in rest.by_ref() {
                        args.operands.push_back(Typed { text, behind: behind.take() });
                    }
                }
                b"-h" | b"--help" => return Ok(None),
                [b'-', b'0'..=b'9', ..] | b"-" => args.operand(argument, &mut behind),
                [b'-', ..] => behind = Some(args.take_option(&argument, &mut rest)?),
                _ => args.operand(argument, &mut behind),
            }
        }
        if let Some(stream) = files::read_twice(&args.read_files()) {
            return Err(args.usage(format!("{stream} can be read once only")));
        }
        args.no_option_without_effect()?;
        if let Some(seconds) = args.text("--timeout") {
            let limit = seconds.parse().ok().and_then(|seconds| Duration::try_from_secs_f64(seconds).ok());
            let wrong = || args.usage(format!("--timeout needs seconds from 0, not '{}'", text::plain(&seconds)));
            files::wait_at_most(limit.ok_or_else(wrong)?);
        }
        Ok(Some(args))
    }

    /// An option that would change nothing is a mistake, and may be one in the rest.
    fn no_option_without_effect(&self) -> Result<(), Failure> {
        let has_book = self.flag("--book") || self.subcommand.operands.iter().any(|operand| operand.name == "BOOK");
        if self.flag("--edition") && !has_book {
            return Err(self.usage("--edition is for a book: --book FILE"));
        }
        // A file that is replaced may be locked too.
        if self.flag("--timeout") && !has_book && !self.flag("--force") {
            let what =
                if self.subcommand.has("--book") { "a book: --book FILE" } else { "a file that is replaced: --force" };
            return Err(self.usage(format!("--timeout is for {what}")));
        }
        let outputs = ["-o", "--svg", "--png"];
        if self.flag("--force") && !outputs.iter().any(|output| self.flag(output)) {
            let output = outputs.into_iter().find(|output| self.subcommand.has(output)).unwrap_or("-o");
            return Err(self.usage(format!("--force is for a file that is written: {output} FILE")));
        }
        if self.flag("--empty") && !self.operands.iter().any(|operand| operand.text == "-") {
            return Err(self.usage("--empty is for a word from standard input: -"));
        }
        if let Some(option) =
            ["--lines", "--words"].into_iter().find(|option| self.flag(option) && self.flag("--names"))
        {
            return Err(self.usage(format!("either {option}, which has no names, or --names")));
        }
        Ok(())
    }

    /// The files that are read, and each - among the operands; a book of `--book` once for each of its presets.
    fn read_files(&self) -> Vec<&Path> {
        let is_file =
            |place: usize| self.subcommand.operands.get(place).is_some_and(|it| it.completes == Completes::File);
        let operands = self.operands.iter().enumerate();
        let operands = operands.filter(|(place, operand)| operand.text == "-" || is_file(*place));
        let mut files: Vec<&OsStr> = operands.map(|(_, operand)| operand.text.as_os_str()).collect();
        files.extend(self.option("--from").map(OsString::as_os_str));
        // Names are no standard input: - is a file of that name.
        files.extend(self.option("--names").map(OsString::as_os_str).filter(|names| *names != "-"));
        let books = self.values("--preset").len().max(1);
        files.extend(self.option("--book").into_iter().flat_map(|book| vec![book.as_os_str(); books]));
        files.into_iter().map(Path::new).collect()
    }

    fn operand(&mut self, text: OsString, behind: &mut Option<String>) {
        self.operands.push_back(Typed { text, behind: behind.take() });
    }

    /// An option, with the value after = or the next argument where it has one. A value keeps its bytes, which need
    /// not be text. Gives the option as it was typed.
    fn take_option(&mut self, argument: &OsStr, rest: &mut impl Iterator<Item = OsString>) -> Result<String, Failure> {
        let bytes = argument.as_bytes();
        let (option, joined) = match bytes.iter().position(|&byte| byte == b'=') {
            Some(at) => (&bytes[..at], Some(OsStr::from_bytes(&bytes[at + 1..]))),
            // -oFILE, as other programs take it.
            None if bytes.starts_with(b"-o") && bytes.len() > 2 => (&bytes[..2], Some(OsStr::from_bytes(&bytes[2..]))),
            None => (bytes, None),
        };
        let option = String::from_utf8_lossy(option);
        let Some(found) = self.subcommand.all_options().find(|listed| listed.name == option) else {
            let meant = suggest::question(&option, self.subcommand.all_options().map(|listed| listed.name));
            return Err(self.usage(format!("no option '{}'{meant}", text::plain(&option))));
        };
        let name = found.name;
        let value = match (found.value, joined) {
            (None, None) => OsString::new(),
            (None, Some(_)) => return Err(self.usage(format!("{name} takes no value"))),
            (Some(_), Some(value)) => value.to_os_string(),
            (Some(value), None) => rest.next().ok_or_else(|| self.usage(format!("{name} needs a value, {value}")))?,
        };
        let given = self.values(name).len();
        if given > usize::from(found.twice) {
            let times = if found.twice { "three times" } else { "twice" };
            return Err(self.usage(format!("{name} is given {times}")));
        }
        let typed = format!("{name} {}", text::plain(&value.to_string_lossy()));
        self.options.push((found, value));
        Ok(typed.trim_end().to_string())
    }

    /// A failure of this subcommand's usage.
    pub fn usage(&self, problem: impl Into<String>) -> Failure {
        Failure::usage(problem, Some(self.subcommand.name))
    }

    pub fn flag(&self, name: &str) -> bool {
        self.option(name).is_some()
    }

    fn option(&self, name: &str) -> Option<&OsString> {
        self.values(name).first().copied()
    }

    /// All values of an option that may be given twice.
    fn values(&self, name: &str) -> Vec<&OsString> {
        self.options.iter().filter(|(option, _)| option.name == name).map(|(_, value)| value).collect()
    }

    pub fn path(&self, name: &str) -> Option<PathBuf> {
        self.option(name).map(PathBuf::from)
    }

    /// An option's value as text.
    pub fn text(&self, name: &str) -> Option<String> {
        self.option(name).map(|value| value.to_string_lossy().into_owned())
    }

    /// An option's number, not negative. One that no machine could count to is as good as the greatest.
    pub fn count(&self, name: &str) -> Result<Option<usize>, Failure> {
        self.option(name).map(|value| self.number(name, value)).transpose()
    }

    fn number(&self, name: &str, value: &OsStr) -> Result<usize, Failure> {
        let text = value.to_string_lossy();
        match numbers::integer(&text) {
            Some(number) if number >= 0 => Ok(usize::try_from(number).unwrap_or(usize::MAX)),
            _ => Err(self.usage(format!("{name} needs a number from 0, not '{}'", text::plain(&text)))),
        }
    }

    /// The numbers of `--preset`, in their order.
    pub fn preset_numbers(&self) -> Result<Vec<usize>, Failure> {
        self.values("--preset").into_iter().map(|value| self.number("--preset", value)).collect()
    }

    /// The edition of the book, which the caller has to name.
    pub fn edition(&self, book: &Path) -> Result<Edition, Failure> {
        self.edition_of(self.option("--edition"), book)
    }

    /// The edition of a second book: the second `--edition`, or the only one.
    pub fn second_edition(&self, book: &Path) -> Result<Edition, Failure> {
        self.edition_of(self.values("--edition").last().copied(), book)
    }

    fn edition_of(&self, named: Option<&OsString>, book: &Path) -> Result<Edition, Failure> {
        let Some(value) = named else {
            let reads = books::reads_as(book);
            return Err(
                self.usage(format!("name the edition that the book was written in: --edition first|second{reads}"))
            );
        };
        match &*value.to_string_lossy() {
            "first" | "1" => Ok(Edition::First),
            "second" | "2" => Ok(Edition::Second),
            other => Err(self.usage(format!("no edition '{}': --edition first|second", text::plain(other)))),
        }
    }

    /// The allowed steps, bit 0 for step 1; all of them where neither option is given. A locked step above the rank
    /// becomes an allowed one, so that the library refuses it (16).
    pub fn set(&self, rank: u8) -> Result<Set, Failure> {
        let all = numbers::all_steps(rank);
        let read = |name: &'static str| {
            let value = self.text(name);
            value.map(|value| numbers::steps(name, &value, rank)).transpose().map_err(|problem| self.usage(problem))
        };
        let allowed = match (read("--allowed")?, read("--locked")?) {
            (Some(_), Some(_)) => return Err(self.usage("either --allowed or --locked")),
            (Some(allowed), None) => allowed,
            (None, Some(locked)) => all ^ locked,
            (None, None) => all,
        };
        Ok(Set { allowed, all })
    }

    pub fn operands(&self) -> usize {
        self.operands.len()
    }

    /// The next operand, by the name that the help text has for it.
    pub fn next(&mut self, name: &str) -> Result<OsString, Failure> {
        match self.operands.pop_front() {
            Some(operand) => Ok(operand.text),
            None => Err(self.usage(format!("no {}", name.trim_start_matches("the ")))),
        }
    }

    /// The next operand as a number from 0.
    pub fn next_number(&mut self, name: &str) -> Result<usize, Failure> {
        let operand = self.next(name)?;
        self.number(name, &operand)
    }

    /// Whether the next operand begins as a rig does that is typed with a letter.
    pub fn rig_is_next(&self) -> bool {
        self.operands
            .front()
            .is_some_and(|operand| operand.text.as_bytes().first().is_some_and(u8::is_ascii_alphabetic))
    }

    /// A rig: `D5`, `D 5`, or by the kind's number `3 5`.
    pub fn rig(&mut self) -> Result<TypedRig, Failure> {
        let typed = self.next("RIG (a kind and a rank, as D5)")?.to_string_lossy().into_owned();
        let (kind, joined) = TypedRig::split(&typed);
        let (kind, rank) = if kind.is_empty() || joined.is_empty() {
            (typed.clone(), self.next("rank (a rig is a kind and a rank, as D5)")?.to_string_lossy().into_owned())
        } else {
            (kind.to_string(), joined.to_string())
        };
        TypedRig::of(kind, &rank).map_err(|problem| self.usage(problem))
    }

    /// All operands that are left, which must stand together, as one word or window.
    pub fn word(&mut self, name: &str) -> Result<Numbers, Failure> {
        if self.operands.is_empty() {
            return Err(self.usage(format!("no {name} ('' is the empty one)")));
        }
        if let Some(apart) = self.operands.iter().skip(1).find(|operand| operand.behind.is_some()) {
            let option = apart.behind.as_deref().unwrap_or_default();
            let text = text::plain(&apart.text.to_string_lossy());
            let set = if option.starts_with("--allowed") || option.starts_with("--locked") {
                "; a set is one argument, as 1-3,5"
            } else {
                ""
            };
            return Err(self.usage(format!("'{text}' stands behind '{option}', apart from the other steps{set}")));
        }
        let parts: Vec<OsString> = self.operands.drain(..).map(|operand| operand.text).collect();
        self.numbers(parts, name)
    }

    /// The next operand as a word or window.
    pub fn next_word(&mut self, name: &str) -> Result<Numbers, Failure> {
        let part = self.next(name)?;
        self.numbers(vec![part], name)
    }

    /// The next operand as a window, with or without brackets.
    pub fn next_window(&mut self, name: &str) -> Result<Window, Failure> {
        Ok(match self.next_word(name)? {
            Numbers::Window(window) => Window::of(window.typed, name),
            Numbers::Word(word) => Window::of(word.typed, name),
        })
    }

    fn numbers(&self, parts: Vec<OsString>, name: &str) -> Result<Numbers, Failure> {
        let (typed, brackets) = if parts.iter().any(|part| part == "-") {
            if parts.len() > 1 {
                return Err(self.usage(format!("{name} is either - or steps, not both")));
            }
            let read = numbers::from_standard_input().map_err(|failure| self.named(failure))?;
            if read.0.is_empty() && !self.flag("--empty") {
                let hint = if self.subcommand.has("--empty") { ": --empty takes it for the empty word" } else { "" };
                return Err(self.usage(format!("standard input has no numbers{hint}")));
            }
            read
        } else {
            let parts: Vec<_> = parts.iter().map(|part| part.to_string_lossy()).collect();
            numbers::word_or_window(&parts.join(" ")).map_err(|problem| self.usage(problem))?
        };
        Ok(if brackets {
            Numbers::Window(Window::of(typed, "the window"))
        } else {
            Numbers::Word(Word::of(typed, name))
        })
    }

    /// Puts the subcommand's name to a failure of usage.
    fn named(&self, failure: Failure) -> Failure {
        match failure {
            Failure::Usage(problem, None) => self.usage(problem),
            other => other,
        }
    }

    /// There must be no operand left.
    pub fn done(&self) -> Result<(), Failure> {
        self.done_with("")
    }

    /// The same where words or windows were read, each of which is one argument.
    pub fn done_with(&self, hint: &str) -> Result<(), Failure> {
        let Some(more) = self.operands.front() else { return Ok(()) };
        Err(self.usage(format!("one argument too many: '{}'{hint}", text::plain(&more.text.to_string_lossy()))))
    }
}
