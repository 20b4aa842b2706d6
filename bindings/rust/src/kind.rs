//! The three kinds.
use core::error::Error;
use core::fmt;
use core::str::FromStr;

/// The kind of a group: what its steps do.
///
/// ```
/// use winnathey::Kind;
///
/// assert_eq!("D".parse(), Ok(Kind::D));
/// assert_eq!(Kind::try_from(3), Ok(Kind::D));
/// assert_eq!(u8::from(Kind::D), 3);
/// assert!("C".parse::<Kind>().is_err());
/// ```
#[derive(Clone, Copy, PartialEq, Eq, PartialOrd, Ord, Hash, Debug)]
pub enum Kind {
    /// Ranks 1 to 63, in a book of the first edition 1 to 31; one lane more than the rank. Step i exchanges the lanes at
    /// i and i + 1.
    A = 1,
    /// Ranks 2 to 64, in a book of the first edition 2 to 32. As in A, but step n mirrors the last lane.
    B = 2,
    /// Ranks 4 to 64, in a book of the first edition 4 to 32. As in A, but step n exchanges the last two lanes and mirrors
    /// both.
    D = 3,
}

/// What was to be a [`Kind`] is none.
#[derive(Clone, Copy, PartialEq, Eq, Hash, Debug)]
pub struct ParseKindError;

impl fmt::Display for ParseKindError {
    fn fmt(&self, f: &mut fmt::Formatter<'_>) -> fmt::Result {
        f.write_str("the kind is not A, B or D (1, 2 or 3)")
    }
}

impl Error for ParseKindError {}

impl fmt::Display for Kind {
    fn fmt(&self, f: &mut fmt::Formatter<'_>) -> fmt::Result {
        f.pad(match self {
            Kind::A => "A",
            Kind::B => "B",
            Kind::D => "D",
        })
    }
}

impl FromStr for Kind {
    type Err = ParseKindError;

    /// Reads the kind's letter, small or capital, or its number.
    fn from_str(text: &str) -> Result<Kind, ParseKindError> {
        match text {
            "A" | "a" | "1" => Ok(Kind::A),
            "B" | "b" | "2" => Ok(Kind::B),
            "D" | "d" | "3" => Ok(Kind::D),
            _ => Err(ParseKindError),
        }
    }
}

impl TryFrom<u8> for Kind {
    type Error = ParseKindError;

    fn try_from(number: u8) -> Result<Kind, ParseKindError> {
        match number {
            1 => Ok(Kind::A),
            2 => Ok(Kind::B),
            3 => Ok(Kind::D),
            _ => Err(ParseKindError),
        }
    }
}

impl From<Kind> for u8 {
    fn from(kind: Kind) -> u8 {
        kind as u8
    }
}

impl From<Kind> for crate::lent::Kind {
    fn from(kind: Kind) -> crate::lent::Kind {
        crate::lent::Kind(kind.into())
    }
}
