//! Numbers as people type them: words, windows, sets of steps.
use crate::failure::{Failure, STANDARD_INPUT};
use crate::library::MAX_WORD;
use crate::{system, text};
use std::io::{self, BufRead, ErrorKind};
use std::num::IntErrorKind;

/// A whole number; one beyond 64 bits as the greatest or the least. A minus may be a hyphen or the sign itself.
pub fn integer(text: &str) -> Option<i64> {
    match text.replace('\u{2212}', "-").parse() {
        Ok(number) => Some(number),
        Err(error) => match error.kind() {
            IntErrorKind::PosOverflow => Some(i64::MAX),
            IntErrorKind::NegOverflow => Some(i64::MIN),
            _ => None,
        },
    }
}

fn separates(character: char) -> bool {
    character == ',' || character.is_whitespace()
}

/// The numbers of a text, in their order. A byte order mark in front does not count.
pub fn typed(text: &str) -> Result<Vec<i64>, String> {
    let text = text.strip_prefix('\u{feff}').unwrap_or(text);
    if text.contains(',') && text.split(',').any(|part| part.trim().is_empty()) {
        return Err(COMMA.to_string());
    }
    let parts = text.split(separates).filter(|part| !part.is_empty());
    parts.map(|part| integer(part).ok_or_else(|| no_number(part))).collect()
}

/// The numbers of a word, or of a window in brackets; whether it is a window.
pub fn word_or_window(text: &str) -> Result<(Vec<i64>, bool), String> {
    let text = match text.strip_prefix('\u{feff}') {
        // Nobody types the empty word so.
        Some(rest) if rest.trim().is_empty() => return Err("a byte order mark is no word".to_string()),
        rest => rest.unwrap_or(text).trim(),
    };
    let inner = text.strip_prefix('[').and_then(|text| text.strip_suffix(']'));
    Ok((typed(inner.unwrap_or(text))?, inner.is_some()))
}

/// A number may be missing where a comma stands alone.
const COMMA: &str = "a comma stands between two numbers: one is missing";

fn no_number(part: &str) -> String {
    let bracket = part.starts_with(['[', ']']) || part.ends_with(['[', ']']);
    let brackets = if bracket { "; brackets stand around one whole window" } else { "" };
    format!("'{}' is no number{brackets}", text::plain(part))
}

/// What standard input holds: numbers, as many as tell whether they are too many for a word; whether they stand in
/// brackets.
pub fn from_standard_input() -> Result<(Vec<i64>, bool), Failure> {
    if !system::was_open(0) {
        return Err(Failure::Stream(STANDARD_INPUT, io::Error::new(ErrorKind::NotConnected, "it is closed")));
    }
    match streamed(io::stdin().lock(), MAX_WORD + 1) {
        Ok(read) => Ok(read),
        Err(Streamed::Failed(error)) => Err(Failure::Stream(STANDARD_INPUT, error)),
        Err(Streamed::NoNumber(part)) => Err(Failure::usage(no_number(&part), None)),
        Err(Streamed::Comma) => Err(Failure::usage(COMMA, None)),
    }
}

enum Streamed {
    Failed(io::Error),
    NoNumber(String),
    /// One without a number before or behind it.
    Comma,
}

/// More bytes than a number has that anyone would type.
const LONG: usize = 40;
const BYTE_ORDER_MARK: &[u8] = b"\xef\xbb\xbf";

/// The brackets of a window, as far as they were read.
#[derive(Clone, Copy, PartialEq, Eq)]
enum Brackets {
    Missing,
    Open,
    Closed,
}

impl Brackets {
    /// With the next one, where it may stand: [ in front of all numbers, ] behind them.
    fn with(self, bracket: u8, in_front: bool) -> Result<Brackets, Streamed> {
        match (self, bracket) {
            (Brackets::Missing, b'[') if in_front => Ok(Brackets::Open),
            (Brackets::Open, b']') => Ok(Brackets::Closed),
            _ => Err(Streamed::NoNumber(char::from(bracket).to_string())),
        }
    }
}

fn streamed(bytes: impl BufRead, most: usize) -> Result<(Vec<i64>, bool), Streamed> {
    let mut numbers = Vec::new();
    let mut brackets = Brackets::Missing;
    let mut part: Vec<u8> = Vec::new();
    let mut first = true;
    // How many numbers there were at the last comma.
    let mut comma: Option<usize> = None;
    for byte in bytes.bytes().chain([Ok(b' ')]) {
        let byte = byte.map_err(Streamed::Failed)?;
        let bracket = byte == b'[' || byte == b']';
        let separates = bracket || byte.is_ascii() && separates(byte.into());
        if !separates && part.len() < LONG {
            part.push(byte);
            if first && part == BYTE_ORDER_MARK {
                part.clear();
                first = false;
            }
        } else if !part.is_empty() {
            let text = String::from_utf8_lossy(&part).into_owned();
            if brackets == Brackets::Closed {
                return Err(Streamed::NoNumber(format!("]{text}")));
            }
            let number = if separates { integer(&text) } else { None };
            numbers.push(number.ok_or(Streamed::NoNumber(text))?);
            part.clear();
            first = false;
        }
        if numbers.len() == most {
            return Ok((numbers, brackets != Brackets::Missing));
        }
        if byte == b',' && numbers.len() <= comma.unwrap_or(0) || byte == b']' && comma == Some(numbers.len()) {
            return Err(Streamed::Comma);
        }
        if byte == b',' {
            comma = Some(numbers.len());
        }
        if bracket {
            brackets = brackets.with(byte, numbers.is_empty())?;
        }
    }
    if comma == Some(numbers.len()) {
        return Err(Streamed::Comma);
    }
    match brackets {
        Brackets::Open => Err(Streamed::NoNumber("[".to_string())),
        _ => Ok((numbers, brackets == Brackets::Closed)),
    }
}

/// The set of all steps of a rank.
pub fn all_steps(rank: u8) -> u64 {
    u64::MAX.checked_shl(rank.into()).map_or(u64::MAX, |above| !above)
}

/// A set of steps: `none`, `all`, or steps and runs such as `1-3,5`.
pub fn steps(option: &str, text: &str, rank: u8) -> Result<u64, String> {
    match text.trim() {
        "none" => return Ok(0),
        "all" => return Ok(all_steps(rank)),
        _ => {}
    }
    if text.contains(',') && text.split(',').any(|part| part.trim().is_empty()) {
        return Err(format!("{option}: {COMMA}"));
    }
    let parts: Vec<&str> = text.split(separates).filter(|part| !part.is_empty()).collect();
    if parts.is_empty() {
        return Err(format!("{option} needs steps such as 1-3,5, or none for the empty set"));
    }
    let mut set = 0;
    for part in parts {
        let step = |text: &str| match integer(text) {
            Some(step @ 1..=64) => Ok(step),
            _ => Err(format!(
                "{option} needs steps from 1 to 64 such as 1-3,5, or all or none, not '{}'",
                text::plain(part)
            )),
        };
        let (first, last) = part.split_once('-').unwrap_or((part, part));
        let (first, last) = (step(first)?, step(last)?);
        if first > last {
            return Err(format!("{option}: the run {first}-{last} goes backwards: write {last}-{first}"));
        }
        for step in first..=last {
            set |= 1 << (step - 1);
        }
    }
    Ok(set)
}

#[cfg(test)]
mod tests {
    use super::*;

    #[test]
    fn spaces_and_commas_separate() {
        assert_eq!(typed("1 2,3, 4\n"), Ok(vec![1, 2, 3, 4]));
        assert_eq!(typed(""), Ok(vec![]));
        assert_eq!(typed("\u{2212}1 -2"), Ok(vec![-1, -2]));
        assert_eq!(typed("99999999999999999999"), Ok(vec![i64::MAX]));
        assert_eq!(typed("\u{feff}1 2"), Ok(vec![1, 2]));
        for wrong in [",", "1,,2", "1,", ",1", "1, ,2", " , "] {
            assert!(typed(wrong).is_err() && streamed(wrong.as_bytes(), 5).is_err(), "{wrong}");
        }
        for wrong in ["[1,]", "[,1]", "[1,,2]", "[1],", ",[1]"] {
            assert!(streamed(wrong.as_bytes(), 5).is_err(), "{wrong}");
        }
        assert!(typed("1 x").is_err() && typed("1.5").is_err() && typed("1 \u{feff}2").is_err());
    }

    #[test]
    fn a_stream_is_read_as_what_is_typed_but_no_further_than_needed() {
        let read = |bytes: &[u8]| streamed(bytes, 5).ok().map(|(numbers, _)| numbers);
        for text in ["1 2,3, 4\n", "", "\u{2212}1 -2", "1 x", "x", "7", "\u{feff}7 8", "1 \u{feff}2"] {
            assert_eq!(read(text.as_bytes()), typed(text).ok(), "{text}");
        }
        assert_eq!(read(b"1 1 1 1 1 x"), Some(vec![1; 5]));
        assert_eq!(read(&[0; 100]), None);
        assert_eq!(read(&[b'1'; 100]), None);
        assert_eq!(read(&[0xff]), None);
        assert!(streamed(&b"[2 -1]"[..], 5).is_ok_and(|read| read == (vec![2, -1], true)));
        assert!(streamed(&b"\xef\xbb\xbf [2,-1] \n"[..], 5).is_ok_and(|read| read == (vec![2, -1], true)));
        for wrong in ["[1 2", "1 2]", "1[2", "]1[", "[1][2]", "[[1 2]]", "[1 2] 3", "1 [2]"] {
            assert_eq!(read(wrong.as_bytes()), None, "{wrong}");
        }
    }

    #[test]
    fn sets_of_steps() {
        let steps = |text| steps("--allowed", text, 5);
        assert_eq!(steps("1-3,5"), Ok(0b10111));
        assert_eq!(steps("1-3 5"), Ok(0b10111));
        assert_eq!(steps("none"), Ok(0));
        assert_eq!(steps("all"), Ok(0b11111));
        assert_eq!((all_steps(0), all_steps(64), all_steps(255)), (0, u64::MAX, u64::MAX));
        assert_eq!(steps("64"), Ok(1 << 63));
        for wrong in ["", ",", " , ", "1,,2", "1,", ",1", "0", "65", "1-", "-1", "5-2", "1-2-3", "x"] {
            assert!(steps(wrong).is_err(), "{wrong}");
        }
    }
}
