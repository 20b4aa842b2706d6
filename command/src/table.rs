//! The table of subcommands, operands and options. Parsing, help, completions, the manual page and the documentation
//! are all made from it.
use crate::args::Args;
use crate::failure::Failure;
use crate::out::Out;

/// What a subcommand answers: for `--status` a yes and a no differ, for `--strict` an answer with a warning.
#[derive(Clone, Copy, PartialEq, Eq)]
pub enum Verdict {
    Answer,
    No,
    Warned,
}

pub struct Subcommand {
    pub name: &'static str,
    /// What it is about, as a heading.
    pub group: &'static str,
    /// One line on it.
    pub about: &'static str,
    /// What follows the name, for each way to use it; options that are not named there follow.
    pub usages: &'static [&'static str],
    /// What it does: paragraphs with an empty line between them.
    pub text: &'static str,
    pub operands: &'static [Operand],
    pub options: &'static [Opt],
    pub examples: &'static [&'static str],
    /// The fields of its answer as JSON, with what each is, in groups.
    pub json: &'static [Fields],
    /// Whether a long answer goes to a pager, on a terminal.
    pub paged: bool,
    pub run: fn(Args, &mut Out) -> Result<Verdict, Failure>,
}

/// Names of JSON fields, and what they are.
pub type Fields = &'static [(&'static str, &'static str)];

#[derive(Clone, Copy)]
pub struct Operand {
    pub name: &'static str,
    pub about: &'static str,
    pub completes: Completes,
}

#[derive(Clone, Copy)]
pub struct Opt {
    pub name: &'static str,
    /// What stands behind it, where something does.
    pub value: Option<&'static str>,
    pub about: &'static str,
    pub completes: Completes,
    /// Whether it may be given twice.
    pub twice: bool,
}

/// What a shell offers for a value.
#[derive(Clone, Copy, PartialEq, Eq)]
pub enum Completes {
    Nothing,
    File,
    OneOf(&'static [&'static str]),
}

pub const PRESETS: &str = "Presets";
pub const WORDS: &str = "Words and windows";
pub const BOOKS: &str = "Books";
pub const ITSELF: &str = "The command itself";

impl Opt {
    const fn flag(name: &'static str, about: &'static str) -> Opt {
        Opt { name, value: None, about, completes: Completes::Nothing, twice: false }
    }

    const fn with(name: &'static str, value: &'static str, about: &'static str) -> Opt {
        Opt { name, value: Some(value), about, completes: Completes::Nothing, twice: false }
    }

    const fn file(name: &'static str, value: &'static str, about: &'static str) -> Opt {
        Opt { completes: Completes::File, ..Opt::with(name, value, about) }
    }

    /// The same option with other words.
    pub const fn about(self, about: &'static str) -> Opt {
        Opt { about, ..self }
    }

    pub const fn twice(self) -> Opt {
        Opt { twice: true, ..self }
    }
}

impl Subcommand {
    /// Its own options and those that every subcommand has.
    pub fn all_options(&self) -> impl Iterator<Item = &'static Opt> {
        self.options.iter().chain(&EVERYWHERE)
    }

    /// The fields of its answer as JSON.
    pub fn fields(&self) -> impl Iterator<Item = &'static (&'static str, &'static str)> {
        self.json.iter().copied().flatten()
    }

    /// Whether its exit status tells the answer without `--status`, as that of diff(1) does.
    pub fn tells_status(&self) -> bool {
        self.name == "diff"
    }

    pub fn has(&self, option: &str) -> bool {
        self.all_options().any(|listed| listed.name == option)
    }
}

pub static EVERYWHERE: [Opt; 2] = [
    Opt::flag(
        "--json",
        "the answer, or why there is none, as one JSON object on standard output; the manual page lists its fields",
    ),
    Opt::flag("--help", "this text; -h too"),
];

/// The names of operands that a shell can complete.
pub const KINDS: &[&str] = &["A", "B", "D"];
pub const EDITIONS: &[&str] = &["first", "second"];

pub const RIG: Operand = Operand {
    name: "RIG",
    about: "kind and rank n, as D5 or D 5. The kinds are A, B and D, or 1, 2 and 3; the ranks 1 to 63 for A, 2 to 64 \
            for B, 4 to 64 for D. A has n + 1 lanes, B and D have n",
    completes: Completes::OneOf(KINDS),
};

pub const WORD: Operand = Operand {
    name: "WORD",
    about: "steps from 1 to n with spaces or commas between them, as one argument or several, 4,096 at most; '' is the \
            empty word, - reads it from standard input. A window in brackets, '[3 -5 1 4 -2]', stands for its normal \
            form",
    completes: Completes::Nothing,
};

pub const ONE_WORD: Operand = Operand {
    name: "WORD",
    about: "one argument each: steps from 1 to n with spaces or commas between them, 4,096 at most; '' is the empty \
            word, - reads one from standard input. A window in brackets, '[3 -5 1 4 -2]', stands for its normal form",
    completes: Completes::Nothing,
};

pub const BOOK: Operand =
    Operand { name: "BOOK", about: "the book's file; - reads it from standard input", completes: Completes::File };

pub const NUMBER: Operand =
    Operand { name: "N", about: "a preset's number in the book, from 0", completes: Completes::Nothing };

pub const EDITION: Opt = Opt {
    completes: Completes::OneOf(EDITIONS),
    ..Opt::with("--edition", "EDITION", "first or second, the edition that the book has: its bytes do not tell")
};

pub const TIMEOUT: Opt = Opt::with(
    "--timeout",
    "SECONDS",
    "how long to wait for a book that another program has locked; without end if not given",
);
pub const TIMEOUT_OF_FILE: Opt =
    TIMEOUT.about("how long to wait for a file that another program has locked; without end if not given");

/// A preset out of a book in place of RIG and WORD.
pub const FROM_BOOK: Opt = Opt::file("--book", "FILE", "takes the preset out of this book, in place of RIG and WORD");
pub const BOTH_FROM_BOOK: Opt = FROM_BOOK.about("takes the first preset, or both, out of this book");
pub const PRESET: Opt = Opt::with("--preset", "N", "the preset's number in the book of --book, from 0");
pub const BOTH_PRESETS: Opt =
    Opt::with("--preset", "N", "the number of the first preset in the book of --book; given twice, of both").twice();

pub const NAMES: Opt =
    Opt::file("--names", "FILE", "the names of sources, screens and presets; BOOK.names beside the book if not given");

pub const EMPTY: Opt =
    Opt::flag("--empty", "takes a standard input without numbers for the empty word, in place of refusing it");

pub const ALLOWED: Opt = Opt::with(
    "--allowed",
    "STEPS",
    "the steps that may be used, one argument: 1-3,5, or all or none; all if not given",
);
pub const LOCKED: Opt = Opt::with("--locked", "STEPS", "the steps that may not be used, in place of --allowed");

pub const STATUS: Opt =
    Opt::flag("--status", "the exit status tells the answer: 0 yes, 1 no, 2 not understood, 3 another failure");

pub const OUTPUT_BOOK: Opt =
    Opt::file("-o", "FILE", "where the new book goes, - for standard output; never BOOK itself");
pub const IN_PLACE: Opt = Opt::flag(
    "--in-place",
    "the new book takes BOOK's place, under a lock; refused if BOOK is write-protected, has several names or changed \
     meanwhile",
);
pub const FORCE: Opt = Opt::flag("--force", "lets -o replace an existing file, if that is of the same sort");
pub const AT_MOST_BYTES: Opt = Opt::with("--at-most", "N", "the new book is refused (14) if it has more than N bytes");
pub const NEW: Opt = Opt::flag("--new", "BOOK does not exist yet and is created");
pub const FROM_LINES: Opt = Opt::file(
    "--from",
    "FILE",
    "takes the presets out of a file with one a line, as list --words prints them; - for standard input",
);
pub const DRY_RUN: Opt = Opt::flag(
    "--dry-run",
    "makes every check, says what would be written and writes nothing; what only writing shows, as a full disk, it does \
     not tell",
);
pub const QUIET: Opt = Opt::flag(
    "--quiet",
    "prints nothing on success; errors and warnings still go to standard error. --json still prints its object",
);

pub const REMOVE: Opt = Opt::flag("--remove", "takes the name away");

pub const LAST: Opt = Opt::with("--last", "N", "the last N steps only");
pub const AT_MOST_STEPS: Opt = Opt::with("--at-most", "N", "refused (15) if there are more than N steps");
pub const WHOLE: Opt =
    Opt::flag("--whole", "words of more than 40 letters whole, not only the letters around the left side");
pub const AT: Opt =
    Opt::with("--at", "PLACE", "one rewrite at that place only, refused (12) if the word has none such");

pub const BOTH: Opt = Opt::flag("--both", "the word as typed above its normal form: they end alike");
pub const OUTPUT_PICTURE: Opt = Opt::file("-o", "FILE", "a picture (SVG), - for standard output");
pub const PNG: Opt = Opt::file("--png", "FILE", "a picture as PNG, made by rsvg-convert if that is installed");
pub const SVG: Opt = Opt::file("--svg", "FILE", "a picture (SVG) of the table instead, - for standard output");

pub const LIMIT: Opt = Opt::with("--limit", "N", "N words at most, 20 if not given");
pub const COUNT: Opt = Opt::flag("--count", "how many words there are, and none of them");
pub const LINES_OF_WORDS: Opt =
    Opt::flag("--words", "one preset a line, rig and stored word, as append --from takes it back, and nothing else");
pub const LINES: Opt = Opt::flag("--lines", "the lines of the listing program, one a preset, and nothing else");
pub const ONE_PRESET: Opt = Opt::with("--preset", "N", "that preset alone, refused (4) if the book has none such");
pub const OUTPUT_REPORT: Opt = Opt::file(
    "-o",
    "FILE",
    "where the sheet goes, - for standard output: HTML, or PDF for a name that ends with .pdf, made by Chromium if that is \
     installed",
);
pub const STRICT: Opt = Opt::flag("--strict", "the exit status is 1 if the sheet begins with a warning");
pub const OUTPUT_CERTIFICATE: Opt =
    Opt::file("-o", "FILE", "where the certificate goes (JSON Lines); standard output if not given");
pub const DATE: Opt = Opt::with("--date", "TEXT", "the date to put on the sheet; a line to write on if not given");
pub const MARKDOWN: Opt = Opt::flag("--markdown", "as Markdown");

/// The fields of JSON answers that several subcommands share: the preset that was read, a normal form and a window, a
/// book that was written.
pub const READ: Fields = &[
    ("rig", "kind, rank and number of lanes"),
    ("word", "the letters of the word; of a window, those of its normal form"),
    ("given_window", "the window, if one was given in place of the word"),
    ("book", "the file of the book, if the preset is out of one"),
    ("preset", "its number there"),
    ("name", "its name, if it has one"),
];
pub const FORM: Fields = &[("normal_form", "the letters of the normal form")];
pub const SHOWS: Fields = &[("window", "the window: a number for each screen, negative if mirrored")];
pub const WRITTEN: Fields = &[
    ("file", "the file that was written, or with --dry-run would be"),
    ("edition", "its edition, first or second"),
    ("presets", "how many presets it has"),
    ("bytes", "how many bytes"),
    ("refused_presets", "the numbers of its presets that are refused: check says why"),
    ("dry_run", "true with --dry-run: nothing is written"),
    ("sha256", "with --dry-run: the hash of the new book"),
    ("old", "with --dry-run: presets, bytes and sha256 of the book before"),
];
pub const ALLOWED_STEPS: Fields = &[("allowed", "the allowed steps")];
pub const PICTURE: Fields = &[("file", "the file that was written, if a picture was asked for")];
