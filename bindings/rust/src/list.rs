//! Lists of numbers: what words, windows and sets of steps are read from.
use core::error::Error;
use core::fmt;

/// What was to be a word, a window or a set of steps is none.
#[derive(Clone, Copy, PartialEq, Eq, Hash, Debug)]
#[non_exhaustive]
pub enum ListError {
    /// The element at this place, which counts from 0, is no number from `least` to `most`.
    Element {
        /// What such an element is called: `letter`, `entry` or `step`.
        element: &'static str,
        /// Its place, which counts from 0.
        place: usize,
        /// The least number that can stand there.
        least: i16,
        /// The greatest.
        most: i16,
    },
    /// There are more entries than the 64 of the longest window.
    TooLong,
}

impl fmt::Display for ListError {
    fn fmt(&self, f: &mut fmt::Formatter<'_>) -> fmt::Result {
        match self {
            ListError::Element { element, place, least, most } => {
                write!(f, "the {element} at place {place} is not a number from {least} to {most}")
            }
            ListError::TooLong => f.write_str("a window has at most 64 entries"),
        }
    }
}

impl Error for ListError {}

/// What separates numbers beside commas: in every language these blanks, and no others that Unicode has.
const BLANKS: [char; 4] = [' ', '\t', '\n', '\r'];

/// The numbers of a text: with blanks between them, or commas, around which there may be blanks. A number has decimal
/// digits, behind a minus sign if `least` is below 0. No text at all is an empty list.
pub(crate) fn numbers<'a>(
    text: &'a str,
    element: &'static str,
    least: i16,
    most: i16,
) -> impl Iterator<Item = Result<i16, ListError>> + 'a {
    // Between two commas stands a number at least: an empty part there is no number.
    let parts = text.split(',').flat_map(|part| {
        let none = part.trim_matches(BLANKS).is_empty().then_some("");
        part.split(BLANKS).filter(|number| !number.is_empty()).chain(none)
    });
    let skipped = if text.trim_matches(BLANKS).is_empty() { usize::MAX } else { 0 };
    parts.skip(skipped).enumerate().map(move |(place, part)| {
        let unsigned = part.strip_prefix('-').filter(|_| least < 0).unwrap_or(part);
        let digits = !unsigned.is_empty() && unsigned.bytes().all(|byte| byte.is_ascii_digit());
        let number = part.parse().ok().filter(|number| digits && (least..=most).contains(number));
        number.ok_or(ListError::Element { element, place, least, most })
    })
}

/// The numbers with a space between each two.
pub(crate) fn spaced<T: fmt::Display>(f: &mut fmt::Formatter<'_>, numbers: impl IntoIterator<Item = T>) -> fmt::Result {
    for (at, number) in numbers.into_iter().enumerate() {
        if at > 0 {
            f.write_str(" ")?;
        }
        write!(f, "{number}")?;
    }
    Ok(())
}
