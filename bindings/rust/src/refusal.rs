//! Refusals.
use crate::raw;
use core::error::Error;
use core::fmt;
use core::ops::Deref;

macro_rules! refusals {
    ($($(#[$about:meta])* $name:ident = $number:literal,)*) => {
        /// Why a call was refused: the first check that failed, in checking order. The names are those of the C header,
        /// `WINNATHEY_REFUSED_LETTER` for [`Letter`](Refusal::Letter); the discriminants are the numbers.
        ///
        /// ```
        /// use winnathey::{Group, Refusal};
        ///
        /// let refusal = "A2".parse::<Group>()?.length_of_word(&[1, 3]).unwrap_err();
        /// assert_eq!(refusal, Refusal::Letter);
        /// assert_eq!(refusal.number(), 8);
        /// assert_eq!(*refusal.message(), *"A letter of the word is out of range: every letter must be at least 1 and at most the rank.");
        /// assert_eq!(refusal.to_string(), "refused 8: a letter of the word is out of range: every letter must be at least 1 and at most the rank");
        /// assert_eq!(format!("{refusal:?}"), "Letter (refused 8: a letter of the word is out of range: every letter must be at least 1 and at most the rank)");
        /// # Ok::<(), Box<dyn std::error::Error>>(())
        /// ```
        #[derive(Clone, Copy, PartialEq, Eq, PartialOrd, Ord, Hash)]
        #[non_exhaustive]
        #[repr(u8)]
        pub enum Refusal {
            $($(#[$about])* $name = $number,)*
        }

        impl Refusal {
            /// All of them, in the order of their numbers.
            pub const ALL: &[Refusal] = &[$(Refusal::$name,)*];

            fn name(self) -> &'static str {
                match self {
                    $(Refusal::$name => stringify!($name),)*
                }
            }
        }
    };
}

refusals! {
    /// The book is too short or too long: a book has either no bytes or from 2 to 65,535 bytes.
    BookSize = 1,
    /// The book is too short for the number of presets that its last two bytes give.
    BookCount = 2,
    /// The book's records and offsets do not fit together: the records must follow one another from byte 0 up to the offsets, and each offset must be where its record begins.
    BookOffset = 3,
    /// There is no preset with this number in the book: presets are numbered from 0.
    PresetNumber = 4,
    /// The kind must be 1 (A), 2 (B) or 3 (D).
    Kind = 5,
    /// The rank is out of range for its kind: 1 to 63 for A, 2 to 64 for B, 4 to 64 for D, and in a book of the first edition at most 31 for A and 32 for B and D.
    Rank = 6,
    /// The word is too long: a word has at most 4,096 letters.
    WordLength = 7,
    /// A letter of the word is out of range: every letter must be at least 1 and at most the rank.
    Letter = 8,
    /// The window has the wrong number of entries: kind A has one more than the rank, kinds B and D have as many as the rank.
    WindowLength = 9,
    /// An entry of the window is wrong: the sizes must be the numbers from 1 to the number of entries, each of them once, and in kind A no entry may be negative.
    Entry = 10,
    /// The window has an odd number of negative entries: in kind D the number must be even.
    OddNegatives = 11,
    /// The place is past the end of the word: places are counted from 0, one for each letter.
    Place = 12,
    /// The new book would be too long: a book has at most 65,535 bytes.
    BookFull = 13,
    /// An output is too short for what the call writes to it. Only the calls on lent buffers refuse this.
    Output = 14,
    /// One of the three output lists is too short: each needs room for every step of the rewriting. Only the calls on lent buffers refuse this.
    StepLists = 15,
    /// The set of allowed steps has a step above the rank: bit 0 stands for step 1, and only the bits of steps up to the rank may be set.
    Allowed = 16,
    /// The lane count in the record is wrong: it must be one more than the rank for kind A, and the rank for kinds B and D.
    LaneCount = 17,
    /// The book cannot be converted to the first edition: one of its records has more than 32 lanes.
    FirstEditionLanes = 18,
    /// The second window cannot be reached from the first with the allowed steps.
    Unreachable = 19,
    /// The rank is too high for a delay table: at most 19 for kind A, and at most 16 for kinds B and D.
    TableRank = 20,
    /// A preset of kind A and rank 1 cannot be appended: books that have one are read, but get no new one.
    RetiredPreset = 21,
}

impl Refusal {
    /// The refusal that the library returns as a number below 0.
    pub(crate) fn answered(answer: i64) -> Refusal {
        let refusal = u8::try_from(-answer).ok().and_then(Refusal::from_number);
        refusal.expect("the library returns no number below 0 but those of its refusals")
    }

    /// The refusal with this number, if there is one.
    pub fn from_number(number: u8) -> Option<Refusal> {
        Refusal::ALL.get(usize::from(number).checked_sub(1)?).copied()
    }

    /// The number, 1 to 21.
    pub fn number(self) -> u8 {
        self as u8
    }

    /// What the number says, in the library's own words.
    pub fn message(self) -> Message {
        let mut bytes = [0; 256];
        let length = raw::refusal_message(self.number().into(), &mut bytes);
        Message { bytes, length: usize::try_from(length).unwrap_or(0) }
    }
}

impl fmt::Debug for Refusal {
    fn fmt(&self, f: &mut fmt::Formatter<'_>) -> fmt::Result {
        write!(f, "{} ({self})", self.name())
    }
}

impl fmt::Display for Refusal {
    fn fmt(&self, f: &mut fmt::Formatter<'_>) -> fmt::Result {
        let message = self.message();
        let (first, rest) = message.trim_end_matches('.').split_at(message.len().min(1));
        write!(f, "refused {}: ", self.number())?;
        first.chars().try_for_each(|letter| write!(f, "{}", letter.to_ascii_lowercase()))?;
        f.write_str(rest)
    }
}

impl Error for Refusal {}

/// The message of a [`Refusal`]: a text.
#[derive(Clone, Copy)]
pub struct Message {
    bytes: [u8; 256],
    length: usize,
}

impl Deref for Message {
    type Target = str;

    fn deref(&self) -> &str {
        str::from_utf8(&self.bytes[..self.length]).unwrap_or_default()
    }
}

impl fmt::Display for Message {
    fn fmt(&self, f: &mut fmt::Formatter<'_>) -> fmt::Result {
        f.pad(self)
    }
}

impl fmt::Debug for Message {
    fn fmt(&self, f: &mut fmt::Formatter<'_>) -> fmt::Result {
        fmt::Debug::fmt(&**self, f)
    }
}
