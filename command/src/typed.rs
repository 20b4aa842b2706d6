//! What was typed: rigs, words, windows and sets of steps, each with the numbers as they stood there.
use crate::json::{Value, list, object};
use crate::library::{self, Edition, Kind, Preset, Refusal, Rig};
use crate::names::Names;
use crate::{numbers, text};

/// A rig, and how it was typed.
#[derive(Clone)]
pub struct TypedRig {
    pub rig: Rig,
    pub kind: String,
    pub rank: i64,
    /// The edition whose ranks hold, where a preset goes to a book.
    pub edition: Option<Edition>,
}

#[derive(Clone)]
pub struct Word {
    pub letters: Vec<u8>,
    /// The numbers before they were cut to bytes.
    pub typed: Vec<i64>,
    /// What the help calls it.
    pub name: String,
}

#[derive(Clone)]
pub struct Window {
    pub entries: Vec<i8>,
    pub typed: Vec<i64>,
    pub name: String,
}

/// Where a preset comes from.
#[derive(Clone)]
pub enum Origin {
    Typed,
    /// The window whose normal form the word is.
    Window(Vec<i8>),
    Book {
        file: String,
        /// The file for JSON.
        named: Value,
        number: usize,
    },
}

/// A preset that was asked about.
#[derive(Clone)]
pub struct Asked {
    pub rig: TypedRig,
    pub word: Word,
    pub origin: Origin,
    pub names: Names,
}

/// A set of allowed steps.
#[derive(Clone, Copy)]
pub struct Set {
    pub allowed: u64,
    pub all: u64,
}

impl Word {
    /// A number that is no byte becomes 0 or 255, which are no steps either.
    pub fn of(typed: Vec<i64>, name: &str) -> Word {
        let letters = typed.iter().map(|number| (*number).clamp(0, 255) as u8).collect();
        Word { letters, typed, name: name.to_string() }
    }

    pub fn known(letters: &[u8], name: &str) -> Word {
        Word::of(letters.iter().map(|&letter| letter.into()).collect(), name)
    }
}

impl Window {
    /// A number that is no signed byte becomes -128 or 127, which are no entries either.
    pub fn of(typed: Vec<i64>, name: &str) -> Window {
        let entries = typed.iter().map(|number| (*number).clamp(-128, 127) as i8).collect();
        Window { entries, typed, name: name.to_string() }
    }
}

impl TypedRig {
    /// The letters in front and the rest: `D5` is D and 5.
    pub fn split(typed: &str) -> (&str, &str) {
        let digits = typed.trim_start_matches(|character: char| character.is_ascii_alphabetic());
        typed.split_at(typed.len() - digits.len())
    }

    /// Kind and rank, or what is wrong with the rank. What is no kind the library refuses.
    pub fn of(kind: String, rank: &str) -> Result<TypedRig, String> {
        let Some(rank) = numbers::integer(rank) else {
            return Err(format!("the rank needs a number, not '{}'", text::plain(rank)));
        };
        let number = match &*kind {
            "A" | "a" => Kind::A,
            "B" | "b" => Kind::B,
            "D" | "d" => Kind::D,
            other => library::kind(numbers::integer(other).map_or(0, |number| number.clamp(0, 255) as u8)),
        };
        // Beyond 0 to 255 there is no rank, as there is none at either end.
        let rig = Rig { kind: number, rank: rank.clamp(0, 255) as u8 };
        Ok(TypedRig { rig, kind, rank, edition: None })
    }

    pub fn known(rig: Rig) -> TypedRig {
        TypedRig { rig, kind: rig.kind.to_string(), rank: rig.rank.into(), edition: None }
    }
}

impl Asked {
    pub fn rig(&self) -> Rig {
        self.rig.rig
    }

    pub fn preset(&self) -> Preset<'_> {
        Preset { rig: self.rig(), word: self.letters() }
    }

    pub fn letters(&self) -> &[u8] {
        &self.word.letters
    }

    /// The preset's name, where the book's names have one.
    pub fn name(&self) -> Option<&str> {
        match &self.origin {
            Origin::Book { number, .. } => self.names.preset(*number),
            _ => None,
        }
    }

    /// What the word is in a heading.
    pub fn called(&self) -> &'static str {
        match self.origin {
            Origin::Typed => "typed",
            Origin::Window(_) => "of the window",
            Origin::Book { .. } => "stored",
        }
    }

    /// Where it comes from, if it was not typed as a word.
    pub fn source(&self) -> Option<String> {
        match &self.origin {
            Origin::Typed => None,
            Origin::Window(window) => Some(format!("window {}", text::spaced(window))),
            Origin::Book { file, number, .. } => {
                let name = self.name().map_or(String::new(), |name| format!(", {name}"));
                Some(format!("preset {number} of {file}{name}"))
            }
        }
    }

    /// What was read, in a line: the rig and the word.
    pub fn heading(&self) -> String {
        let letters = text::counted(self.letters().len(), "letter");
        let word = format!("{}, {letters}: {}", self.rig(), text::word(self.letters()));
        match self.source() {
            None => word,
            Some(source) => format!("{source}: {word}"),
        }
    }

    /// What was read, for JSON.
    pub fn fields(&self) -> Vec<(&'static str, Value)> {
        let mut fields = vec![("rig", rig(self.rig())), ("word", list(self.letters()))];
        match &self.origin {
            Origin::Typed => {}
            Origin::Window(window) => fields.push(("given_window", list(window))),
            Origin::Book { named, number, .. } => {
                fields.push(("book", named.clone()));
                fields.push(("preset", (*number).into()));
                fields.extend(self.name().map(|name| ("name", name.into())));
            }
        }
        fields
    }
}

/// A rig for JSON.
pub fn rig(rig: Rig) -> Value {
    let lanes = library::lanes(rig).map_or(Value::Null, Value::from);
    object([("kind", rig.kind.to_string().into()), ("rank", rig.rank.into()), ("lanes", lanes)])
}

impl Set {
    pub fn told(&self) -> String {
        format!("allowed {}, locked {}", text::set(self.allowed), text::set(self.all & !self.allowed))
    }
}

/// The accepted ranks of a kind, for the calls or for a book.
pub fn ranks(kind: Kind, edition: Option<Edition>) -> Option<(u8, u8)> {
    match edition {
        None => library::ranks(kind),
        Some(edition) => library::ranks_in(edition, kind),
    }
}

/// The refusal of a word alone.
pub fn refusal_of_word(rig: Rig, word: &Word) -> Option<Refusal> {
    library::length(rig, &word.letters).err()
}

/// The refusal of a window alone.
pub fn refusal_of_window(rig: Rig, window: &Window) -> Option<Refusal> {
    library::length_of_window(rig, &window.entries).err()
}
