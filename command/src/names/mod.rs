//! The names beside a book: of the sources and screens of its rig and of its presets; where the screens stand in the
//! cabin, its photograph, and what a step takes. Lines such as `source 1 rear view`, `preset 0 Motorway`, `delay 2.5`, and
//! comments behind `#`.
mod file;
mod line;

pub use file::{aside, beside, bytes_beside, bytes_of, of_book, parsed_file, read};
pub use line::{Keyword, Place};

use crate::sha256;
use line::{Entry, Line, parsed};
use std::collections::HashSet;

#[derive(Clone, Default, PartialEq, Eq, Debug)]
pub struct Names {
    lines: Vec<Line>,
    /// Whether lines end with CR LF.
    returns: bool,
    /// The hash of the bytes that were read.
    pub sha256: Option<String>,
}

impl Names {
    fn entries(&self) -> impl Iterator<Item = &Entry> {
        self.lines.iter().filter_map(|line| match line {
            Line::Entry(entry) => Some(entry),
            Line::Other(_) => None,
        })
    }

    pub fn find(&self, keyword: Keyword, number: usize) -> Option<&str> {
        self.entries().find(|entry| entry.is(keyword, number)).map(|entry| entry.value.as_str())
    }

    /// All names and what else is kept with them, in the order of their lines.
    pub fn all(&self) -> impl Iterator<Item = (Keyword, usize, &str)> {
        self.entries().map(|entry| (entry.keyword, entry.number, entry.value.as_str()))
    }

    /// Whether that can be named so; what is wrong if not.
    pub fn check(keyword: Keyword, number: usize, value: &str) -> Result<(), String> {
        match parsed(&Entry::new(keyword, number, value).written())? {
            Line::Entry(read) if read.value == value && !value.contains(['\n', '\r']) => Ok(()),
            _ => Err("a name has no blanks at its ends".to_string()),
        }
    }

    /// With another name, or with none: in the place of its line, or behind the last one of its keyword.
    pub fn with(&self, keyword: Keyword, number: usize, value: Option<&str>) -> Names {
        let is_it = |line: &Line| matches!(line, Line::Entry(entry) if entry.is(keyword, number));
        let new = value.map(|value| Line::Entry(Entry::new(keyword, number, value)));
        let mut lines = self.lines.clone();
        match (lines.iter().position(is_it), new) {
            (Some(at), Some(new)) => lines[at] = new,
            (Some(at), None) => drop(lines.remove(at)),
            (None, Some(new)) => {
                let of_keyword = |line: &Line| matches!(line, Line::Entry(entry) if entry.keyword == keyword);
                let at = lines.iter().rposition(of_keyword).map_or(lines.len(), |last| last + 1);
                lines.insert(at, new);
            }
            (None, None) => {}
        }
        Names { lines, returns: self.returns, sha256: None }
    }

    /// By the lane, from 1.
    pub fn source(&self, lane: usize) -> Option<&str> {
        self.find(Keyword::Source, lane)
    }

    /// By the lane, from 1.
    pub fn screen(&self, lane: usize) -> Option<&str> {
        self.find(Keyword::Screen, lane)
    }

    pub fn preset(&self, number: usize) -> Option<&str> {
        self.find(Keyword::Preset, number)
    }

    /// Where a screen stands in the cabin.
    pub fn place(&self, lane: usize) -> Option<Place> {
        self.find(Keyword::Place, lane).and_then(|text| Place::parse(text).ok())
    }

    /// The file of a picture of the cabin.
    pub fn photograph(&self) -> Option<&str> {
        self.find(Keyword::Photograph, 0)
    }

    /// What a step takes, in thousandths of a millisecond.
    pub fn delay(&self) -> Option<u64> {
        self.find(Keyword::Delay, 0).and_then(line::thousandths)
    }

    /// The names of presets that a book with so many does not have, in a list to be told; none if there are none.
    pub fn past_the_end(&self, count: usize) -> Option<String> {
        let is_past = |entry: &&Entry| entry.keyword == Keyword::Preset && entry.number >= count;
        let past = self.entries().filter(is_past).map(|entry| format!("{} '{}'", entry.number, entry.value));
        let past: Vec<String> = past.collect();
        let word = if past.len() == 1 { "preset" } else { "presets" };
        (!past.is_empty()).then(|| format!("{word} {}", past.join(", ")))
    }

    /// Whether a preset has a name.
    pub fn any_preset(&self) -> bool {
        self.entries().any(|entry| entry.keyword == Keyword::Preset)
    }

    /// Whether a source or a screen of so many lanes has a name.
    pub fn any(&self, lanes: usize) -> bool {
        (1..=lanes).any(|lane| self.source(lane).is_some() || self.screen(lane).is_some())
    }

    /// The file's bytes, or the number of the first wrong line and what is wrong there.
    pub fn parse(bytes: &[u8]) -> Result<Names, (usize, String)> {
        let sha256 = Some(sha256::hex(bytes));
        let bytes = bytes.strip_prefix(b"\xef\xbb\xbf").unwrap_or(bytes);
        let text = std::str::from_utf8(bytes).map_err(|error| {
            let before = bytes[..error.valid_up_to()].iter().filter(|&&byte| byte == b'\n').count();
            (before + 1, "bytes that are no UTF-8".to_string())
        })?;
        let returns = text.lines().count() > 0 && text.split('\n').next().is_some_and(|line| line.ends_with('\r'));
        let mut lines = Vec::new();
        let mut named = HashSet::new();
        for (number, line) in text.lines().enumerate() {
            let line = parsed(line).map_err(|problem| (number + 1, problem))?;
            if let Line::Entry(entry) = &line
                && !named.insert((entry.keyword, entry.number))
            {
                let what = entry.keyword.with(entry.number);
                let twice = if entry.keyword.is_name() { "is named twice" } else { "has two lines" };
                return Err((number + 1, format!("{what} {twice}")));
            }
            lines.push(line);
        }
        Ok(Names { lines, returns, sha256 })
    }

    /// The bytes of the file.
    pub fn written(&self) -> Vec<u8> {
        let end = if self.returns { "\r\n" } else { "\n" };
        let line = |line: &Line| match line {
            Line::Other(text) => format!("{text}{end}"),
            Line::Entry(entry) => format!("{}{end}", entry.written()),
        };
        self.lines.iter().map(line).collect::<String>().into_bytes()
    }

    /// The names where presets have other numbers; one that has none any more goes.
    pub fn renumbered(&self, new: impl Fn(usize) -> Option<usize>) -> Names {
        let line = |line: &Line| match line {
            Line::Entry(entry) if entry.keyword == Keyword::Preset => {
                new(entry.number).map(|number| Line::Entry(Entry { number, ..entry.clone() }))
            }
            other => Some(other.clone()),
        };
        let lines = self.lines.iter().filter_map(line).collect();
        Names { lines, returns: self.returns, sha256: None }
    }
}

#[cfg(test)]
mod tests {
    use super::*;

    #[test]
    fn names_are_read_and_written_again() {
        let text = "# Cabin 3\n\nsource 1 rear view\nscreen 3 left  mirror\npreset 0 A #1\n";
        let names = Names::parse(text.as_bytes()).unwrap();
        assert_eq!(names.source(1), Some("rear view"));
        assert_eq!(names.screen(3), Some("left  mirror"));
        assert_eq!(names.preset(0), Some("A #1"));
        assert_eq!(
            (names.source(2), names.preset(1), names.any(2), Names::default().any(64)),
            (None, None, true, false)
        );
        assert_eq!(names.written(), text.as_bytes());
        let loose = Names::parse(b"\xef\xbb\xbf \tscreen\t07   wall \t\r\n#\r\n").unwrap();
        assert_eq!(loose.screen(7), Some("wall"));
        assert_eq!(loose.written(), b"screen 7 wall\r\n#\r\n");
        assert_eq!(Names::parse(b"").unwrap().written(), b"");
    }

    #[test]
    fn wrong_lines_are_told_by_number() {
        let wrong = |text: &[u8]| Names::parse(text).unwrap_err().0;
        for line in [
            "preset 0",
            "source 0 sky",
            "screen 65 wall",
            "Source 1 sky",
            "source x sky",
            "source +1 sky",
            "source",
            "preset 65536 x",
            "preset 000001 x",
            "preset 1 a\u{1b}b",
            "preset 1 a\tb",
            "preset 1 \u{202e}b",
            "1 source",
            "-x 1",
            "d\u{e9}lai 1",
            "place 3",
            "place 0 0 0 100 100",
            "place 65 0 0 100 100",
            "place 3 1 2 30",
            "place 3 1 2 30 40 5",
            "place 3 1 2 30 x",
            "place 3 -1 2 30 40",
            "place 3 00001 2 30 40",
            "place 3 0 0 19 20",
            "place 3 0 0 20 19",
            "place 3 900 0 200 200",
            "place 3 0 801 20 200",
            "photograph",
            "photograph pictures/cabin.jpg",
            "photograph a\\b.jpg",
            "photograph ..",
            "photograph .",
            "photograph a\tb",
            "delay",
            "delay 2,5",
            "delay 0",
            "delay 0.000",
            "delay .5",
            "delay 5.",
            "delay 1.2345",
            "delay 12345",
            "delay -1",
            "delay 1e3",
            "delay 2.5 ms",
        ] {
            assert_eq!(wrong(format!("# first\n{line}\n").as_bytes()), 2, "{line}");
        }
        assert_eq!(wrong(format!("preset 1 {}", "x".repeat(81)).as_bytes()), 1);
        assert_eq!(wrong(b"source 1 sky\nsource 2 sky\nsource 01 sky"), 3);
        assert_eq!(wrong(b"#\n#\n\xff"), 3);
        assert_eq!(wrong(b"delay 1\ndelay 1"), 2);
        assert_eq!(wrong(b"photograph a\nphotograph b"), 2);
        assert_eq!(wrong(b"place 1 0 0 20 20\nplace 01 0 0 20 20"), 2);
    }

    #[test]
    fn lines_of_later_versions_are_kept() {
        let text = "layout 3 by 2\r\n  pause  3 0.25 \r\ncabin-3\r\npreset 0 a\r\nlayout 3 by 2\r\n";
        let names = Names::parse(text.as_bytes()).unwrap();
        assert_eq!((names.preset(0), names.written()), (Some("a"), text.as_bytes().to_vec()));
        let moved = names.renumbered(|number| Some(number + 1)).written();
        assert_eq!(moved, text.replace("preset 0", "preset 1").as_bytes());
    }

    #[test]
    fn the_cabin_and_the_delay_are_read_and_kept_as_they_stand() {
        let text = " place\t03  040 420 160 200 \nphotograph  my cabin.jpg\n delay 02.50\npreset 0 a\n";
        let names = Names::parse(text.as_bytes()).unwrap();
        assert_eq!(names.place(3), Some(Place { left: 40, top: 420, wide: 160, high: 200 }));
        assert_eq!((names.place(1), names.photograph(), names.delay()), (None, Some("my cabin.jpg"), Some(2500)));
        let renamed = names.with(Keyword::Preset, 0, Some("b"));
        assert_eq!(renamed.written(), text.replace("preset 0 a", "preset 0 b").as_bytes());
        assert_eq!(names.renumbered(|_| None).written(), text.replace("preset 0 a\n", "").as_bytes());
        assert_eq!(names.with(Keyword::Delay, 0, Some("9999.999")).delay(), Some(9_999_999));
        assert_eq!(names.with(Keyword::Delay, 0, None).delay(), None);
        assert!(Names::check(Keyword::Delay, 0, "2.5").is_ok() && Names::check(Keyword::Delay, 0, "2,5").is_err());
        assert!(Names::check(Keyword::Place, 3, "0 0 20 20").is_ok());
        for whole in ["0 0 1000 1000", "980 980 20 20"] {
            assert!(Names::check(Keyword::Place, 1, whole).is_ok(), "{whole}");
        }
    }

    #[test]
    fn presets_get_other_numbers() {
        let names = Names::parse(b"preset 2 c\n# kept\npreset 1 b\npreset 0 a\nsource 1 s\n").unwrap();
        let without_1 = names.renumbered(|number| match number {
            1 => None,
            number if number > 1 => Some(number - 1),
            number => Some(number),
        });
        assert_eq!(without_1.written(), b"preset 1 c\n# kept\npreset 0 a\nsource 1 s\n");
    }
}
