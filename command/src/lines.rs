//! The lines of `append --from`: a preset on each, as `list --words` prints them. Empty lines and those that begin with
//! `#` are skipped; the first wrong line ends the reading, and nothing is appended.
use crate::args::Numbers;
use crate::asked;
use crate::books;
use crate::failure::{At, Failure, STANDARD_INPUT};
use crate::files;
use crate::json::Value;
use crate::library::{self, Edition, MAX_BOOK, Preset};
use crate::names::Names;
use crate::numbers;
use crate::system;
use crate::text;
use crate::typed::{Asked, TypedRig, Window, Word};
use std::fs::File;
use std::io::{self, BufRead, BufReader, ErrorKind, Read};
use std::path::Path;

pub struct Lines {
    /// The file, to be shown and for JSON.
    pub file: String,
    pub named: Value,
    /// Each with the number of its line, from 1.
    presets: Vec<(usize, Asked)>,
}

/// More bytes than a line with a word of 4,096 letters has.
const LONGEST: u64 = 1 << 16;
/// A record has a head of 4 bytes at least, and an offset of 2.
const LEAST_RECORD: usize = 6;
const EMPTY: [&str; 2] = ["''", "(the empty word)"];
const BYTE_ORDER_MARK: &[u8] = b"\xef\xbb\xbf";

impl Lines {
    /// All presets of a file, each of which a book of the edition takes.
    pub fn read(path: &Path, edition: Edition) -> Result<Lines, Failure> {
        let (file, named) = books::source(path);
        let mut lines = Lines { file, named, presets: Vec::new() };
        if !files::is_standard(path) {
            let file = File::open(path).map_err(|error| Failure::file(path, error))?;
            lines.take(BufReader::new(file), edition, |error| Failure::file(path, error))?;
        } else if system::was_open(0) {
            lines.take(io::stdin().lock(), edition, |error| Failure::Stream(STANDARD_INPUT, error))?;
        } else {
            let closed = io::Error::new(ErrorKind::NotConnected, "it is closed");
            return Err(Failure::Stream(STANDARD_INPUT, closed));
        }
        if lines.presets.is_empty() {
            return Err(Failure::Unwilling(format!("{} has no presets: nothing is appended", lines.shown())));
        }
        Ok(lines)
    }

    fn take(
        &mut self,
        mut from: impl BufRead,
        edition: Edition,
        failed: impl Fn(io::Error) -> Failure,
    ) -> Result<(), Failure> {
        let (mut line, mut number, mut least) = (Vec::new(), 0, 0);
        // What is behind cannot fit into any book, and may have no end.
        while least <= MAX_BOOK {
            line.clear();
            if from.by_ref().take(LONGEST + 1).read_until(b'\n', &mut line).map_err(&failed)? == 0 {
                break;
            }
            number += 1;
            let is_cut = line.len() as u64 > LONGEST && line.last() != Some(&b'\n');
            let read = if is_cut { Err(too_long()) } else { parsed(&line, number == 1, edition) };
            if let Some(asked) = read.map_err(|failure| self.at(number, failure))? {
                least += LEAST_RECORD + asked.letters().len();
                self.presets.push((number, asked));
            }
        }
        Ok(())
    }

    pub fn len(&self) -> usize {
        self.presets.len()
    }

    pub fn presets(&self) -> Vec<Preset<'_>> {
        self.presets.iter().map(|(_, asked)| asked.preset()).collect()
    }

    /// A failure of the preset at that place, from 0.
    pub fn failed(&self, place: usize, failure: Failure) -> Failure {
        self.at(self.presets[place].0, failure)
    }

    fn at(&self, line: usize, failure: Failure) -> Failure {
        Failure::Line(At { file: self.shown(), named: self.named.clone(), line }, Box::new(failure))
    }

    /// The file in a sentence.
    fn shown(&self) -> String {
        if self.file == STANDARD_INPUT { self.file.clone() } else { format!("'{}'", self.file) }
    }
}

fn too_long() -> Failure {
    Failure::Unwilling(format!("it has more than {} bytes", text::grouped(LONGEST)))
}

/// The preset of a line; none of one that is empty or a comment.
fn parsed(line: &[u8], is_first: bool, edition: Edition) -> Result<Option<Asked>, Failure> {
    let line = if is_first { line.strip_prefix(BYTE_ORDER_MARK).unwrap_or(line) } else { line };
    let wrong = |problem: String| Failure::Unwilling(problem);
    let line = std::str::from_utf8(line).map_err(|_| wrong("bytes that are no UTF-8".to_string()))?.trim();
    if line.is_empty() || line.starts_with('#') {
        return Ok(None);
    }
    let (rig, word) = line.split_once(char::is_whitespace).unwrap_or((line, ""));
    let mut rig = rig_of(rig).map_err(wrong)?;
    rig.edition = Some(edition);
    let numbers = numbers_of(word.trim()).map_err(wrong)?;
    let kind = rig.kind.clone();
    let refused = |failure| in_line(failure, &kind);
    let asked = asked::of_numbers(rig, numbers, Names::default()).map_err(refused)?;
    // Alone, so that what is wrong with it is told before what stands behind it.
    let appended = library::append(edition, &[], asked.rig(), asked.letters(), MAX_BOOK);
    appended.map_err(|refusal| refused(asked.refused(refusal)))?;
    Ok(Some(asked))
}

/// A letter and a rank in one: a line that lacks it would else be read as kind and rank by their numbers.
fn rig_of(typed: &str) -> Result<TypedRig, String> {
    let (kind, rank) = TypedRig::split(typed);
    if kind.is_empty() || rank.is_empty() {
        return Err(format!("a line begins with kind and rank, as D5, not with '{}'", text::plain(typed)));
    }
    TypedRig::of(kind.to_string(), rank)
}

/// Lines do not take a kind by its number, as the command's arguments do.
fn in_line(failure: Failure, kind: &str) -> Failure {
    match failure {
        Failure::Refused(refusal, _) if refusal.number() == 5 => {
            let kind = text::plain(kind);
            Failure::Refused(
                refusal,
                Some(format!("'{kind}' is no kind: a line begins with A, B or D and the rank, as D5")),
            )
        }
        other => other,
    }
}

fn numbers_of(typed: &str) -> Result<Numbers, String> {
    if typed.is_empty() {
        return Err(format!("no word: {} or {} is the empty one", EMPTY[0], EMPTY[1]));
    }
    if typed.contains('\u{feff}') {
        return Err("a byte order mark stands in front of a whole file only".to_string());
    }
    if EMPTY.contains(&typed) {
        return Ok(Numbers::Word(Word::of(Vec::new(), "the word")));
    }
    if typed.contains('#') {
        return Err("a comment stands behind a word: # begins a line of its own".to_string());
    }
    let (numbers, is_window) = numbers::word_or_window(typed)?;
    Ok(if is_window {
        Numbers::Window(Window::of(numbers, "the window"))
    } else {
        Numbers::Word(Word::of(numbers, "the word"))
    })
}

#[cfg(test)]
mod tests {
    use super::*;

    fn letters(line: &str) -> Result<Option<Vec<u8>>, Failure> {
        let asked = parsed(line.as_bytes(), true, Edition::Second)?;
        Ok(asked.map(|asked| [&[asked.rig().kind.0, asked.rig().rank], asked.letters()].concat()))
    }

    #[test]
    fn lines_are_presets_or_skipped() {
        for line in ["", " \t\r\n", "# preset 3: refused", "  # D5 1\n"] {
            assert!(letters(line).is_ok_and(|read| read.is_none()), "{line}");
        }
        for line in ["D5 4 4 2 5", "\u{feff}d5\t4,4,2,5 \r\n", "  D5   4, 4 2 ,5\n"] {
            assert!(letters(line).is_ok_and(|read| read == Some(vec![3, 5, 4, 4, 2, 5])), "{line}");
        }
        for line in ["A2 ''", "A2 (the empty word)\n"] {
            assert!(letters(line).is_ok_and(|read| read == Some(vec![1, 2])), "{line}");
        }
        assert!(letters("A2 [2 1 3]").is_ok_and(|read| read == Some(vec![1, 2, 1])));
    }

    #[test]
    fn wrong_lines_are_told() {
        for (line, told) in [
            ("5 2 3", "a line begins with kind and rank, as D5, not with '5'"),
            ("D 5 1", "a line begins with kind and rank, as D5, not with 'D'"),
            ("D5", "no word: '' or (the empty word) is the empty one"),
            ("Dx5 1", "refused 5"),
            ("D5x 1", "the rank needs a number, not '5x'"),
            ("D5 1 x", "'x' is no number"),
            ("D5 1 # x", "a comment stands behind a word"),
            ("D5 1,,2", "a comma stands between two numbers"),
            ("D5 6", "refused 8"),
            ("A1 1", "refused 21"),
            ("D65 1", "refused 6"),
            ("D5 [1 2 3 4 -5]", "refused 11"),
        ] {
            let failure = letters(line).err().map(|failure| failure.in_a_line());
            assert!(failure.as_ref().is_some_and(|failure| failure.starts_with(told)), "{line}: {failure:?}");
        }
        assert!(parsed(b"D5 \xff", false, Edition::First).is_err());
        assert!(parsed(b"\xef\xbb\xbfD5 1", false, Edition::First).is_err());
    }
}
