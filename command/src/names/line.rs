//! The lines of a file of names: docs/NAMES.md has the format.
use crate::text;

#[derive(Clone, Copy, PartialEq, Eq, Hash, Debug)]
pub enum Keyword {
    Source,
    Screen,
    Preset,
    Place,
    Photograph,
    Delay,
}

#[derive(Clone, PartialEq, Eq, Debug)]
pub enum Line {
    /// Empty, a comment, or a line of a later version: kept as it is.
    Other(String),
    Entry(Entry),
}

#[derive(Clone, PartialEq, Eq, Debug)]
pub struct Entry {
    pub keyword: Keyword,
    /// 0 for a keyword that has no number.
    pub number: usize,
    /// The name, or what else stands behind the keyword and the number.
    pub value: String,
    /// The line as it was read, if it has to stay so.
    pub raw: Option<String>,
}

/// Where a screen stands, in thousandths of the cabin's width and height.
#[derive(Clone, Copy, PartialEq, Eq, Debug)]
pub struct Place {
    pub left: usize,
    pub top: usize,
    pub wide: usize,
    pub high: usize,
}

const MOST_CHARACTERS: usize = 80;
const BLANKS: [char; 2] = [' ', '\t'];
/// A screen's least width and height, and the cabin's.
const LEAST: usize = 20;
const CABIN: usize = 1000;

impl Keyword {
    pub const ALL: [Keyword; 6] =
        [Keyword::Source, Keyword::Screen, Keyword::Preset, Keyword::Place, Keyword::Photograph, Keyword::Delay];

    pub fn of(word: &str) -> Option<Keyword> {
        Keyword::ALL.into_iter().find(|one| one.word() == word)
    }

    pub fn word(self) -> &'static str {
        match self {
            Keyword::Source => "source",
            Keyword::Screen => "screen",
            Keyword::Preset => "preset",
            Keyword::Place => "place",
            Keyword::Photograph => "photograph",
            Keyword::Delay => "delay",
        }
    }

    pub fn is_numbered(self) -> bool {
        !matches!(self, Keyword::Photograph | Keyword::Delay)
    }

    /// Whether it gives a name to something.
    pub fn is_name(self) -> bool {
        matches!(self, Keyword::Source | Keyword::Screen | Keyword::Preset)
    }

    /// What a line is about: `screen 3`, `delay`.
    pub fn with(self, number: usize) -> String {
        if self.is_numbered() { format!("{} {number}", self.word()) } else { self.word().to_string() }
    }
}

impl Entry {
    pub fn new(keyword: Keyword, number: usize, value: &str) -> Entry {
        Entry { keyword, number, value: value.to_string(), raw: None }
    }

    pub fn is(&self, keyword: Keyword, number: usize) -> bool {
        (self.keyword, self.number) == (keyword, number)
    }

    pub fn written(&self) -> String {
        self.raw.clone().unwrap_or_else(|| format!("{} {}", self.keyword.with(self.number), self.value))
    }
}

impl Place {
    /// Four numbers, of one to four digits each.
    pub fn parse(text: &str) -> Result<Place, String> {
        let is_number = |part: &str| (1..=4).contains(&part.len()) && part.bytes().all(|byte| byte.is_ascii_digit());
        let parts: Vec<&str> = text.split(BLANKS).filter(|part| !part.is_empty()).collect();
        let numbers: Option<Vec<usize>> =
            parts.iter().map(|part| part.parse().ok().filter(|_| is_number(part))).collect();
        let Some(&[left, top, wide, high]) = numbers.as_deref() else {
            return Err("needs left, top, width and height, in thousandths of the cabin".to_string());
        };
        if wide < LEAST || high < LEAST {
            return Err(format!("is less than {LEAST} thousandths wide or high"));
        }
        if left + wide > CABIN || top + high > CABIN {
            return Err("ends outside the cabin, which has 1000 thousandths each way".to_string());
        }
        Ok(Place { left, top, wide, high })
    }
}

/// Milliseconds above 0, in thousandths.
pub fn thousandths(text: &str) -> Option<u64> {
    let (whole, part) = text.split_once('.').unwrap_or((text, "0"));
    let is_number =
        |digits: &str, most| (1..=most).contains(&digits.len()) && digits.bytes().all(|byte| byte.is_ascii_digit());
    if !is_number(whole, 4) || !is_number(part, 3) {
        return None;
    }
    let number = whole.parse::<u64>().ok()? * 1000 + format!("{part:0<3}").parse::<u64>().ok()?;
    (number > 0).then_some(number)
}

/// Whether a word can be a keyword, also one that a later version has.
fn is_keyword(word: &str) -> bool {
    let is_rest = |byte: u8| byte.is_ascii_lowercase() || byte.is_ascii_digit() || byte == b'-';
    word.starts_with(|first: char| first.is_ascii_lowercase()) && word.bytes().all(is_rest)
}

pub fn parsed(line: &str) -> Result<Line, String> {
    let text = line.trim_matches(BLANKS);
    if text.is_empty() || text.starts_with('#') {
        return Ok(Line::Other(line.to_string()));
    }
    let (word, rest) = text.split_once(BLANKS).unwrap_or((text, ""));
    let Some(keyword) = Keyword::of(word) else {
        if is_keyword(word) {
            return Ok(Line::Other(line.to_string()));
        }
        let known = Keyword::ALL.map(Keyword::word).join(", ");
        return Err(format!("'{}' is no keyword ({known}) and no comment behind #", text::plain(word)));
    };
    let rest = rest.trim_matches(BLANKS);
    let (number, value) = if keyword.is_numbered() { numbered(keyword, rest)? } else { (0, rest) };
    checked(keyword, &keyword.with(number), value)?;
    let raw = (!keyword.is_name()).then(|| line.to_string());
    Ok(Line::Entry(Entry { keyword, number, value: value.to_string(), raw }))
}

/// The number behind a keyword, and what follows it.
fn numbered(keyword: Keyword, rest: &str) -> Result<(usize, &str), String> {
    let (digits, value) = rest.split_once(BLANKS).unwrap_or((rest, ""));
    let range = if keyword == Keyword::Preset { 0..=65535 } else { 1..=64 };
    let is_number = (1..=5).contains(&digits.len()) && digits.bytes().all(|byte| byte.is_ascii_digit());
    let number = digits.parse().ok().filter(|number| is_number && range.contains(number));
    let number = number.ok_or_else(|| {
        let (word, first, last) = (keyword.word(), range.start(), range.end());
        format!("{word} needs a number from {first} to {last}, not '{}'", text::plain(digits))
    })?;
    Ok((number, value.trim_start_matches(BLANKS)))
}

/// Whether that may stand behind a keyword.
fn checked(keyword: Keyword, what: &str, value: &str) -> Result<(), String> {
    match keyword {
        Keyword::Place => Place::parse(value).map(|_| ()).map_err(|problem| format!("{what} {problem}")),
        Keyword::Delay if thousandths(value).is_none() => {
            Err(format!("delay needs milliseconds from 0.001 to 9999.999, as 2.5, not '{}'", text::plain(value)))
        }
        Keyword::Delay => Ok(()),
        Keyword::Photograph if value.contains(['/', '\\']) || value == "." || value == ".." => {
            Err(format!("photograph needs the name of a file beside the book, not '{}'", text::plain(value)))
        }
        _ => is_shown(what, value),
    }
}

/// Whether a name can be shown in a line.
fn is_shown(what: &str, name: &str) -> Result<(), String> {
    if name.is_empty() {
        return Err(format!("{what} has no name"));
    }
    if name.chars().count() > MOST_CHARACTERS {
        return Err(format!("the name of {what} has more than {MOST_CHARACTERS} characters"));
    }
    if name.chars().any(text::is_unseen) {
        return Err(format!("the name of {what} has a character that is not to be seen"));
    }
    Ok(())
}
