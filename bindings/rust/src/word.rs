//! Words as values.
use crate::list::{ListError, numbers, spaced};
use alloc::vec::Vec;
use core::fmt;
use core::ops::Deref;
use core::str::FromStr;

/// A word: its steps, from the left. It is a slice of `u8` in all but its `Display`, which prints the steps with spaces
/// between them, and which [`from_str`](Word::from_str) reads. Whether the steps are those of a group its calls check.
///
/// ```
/// use winnathey::Word;
///
/// let word: Word = "4 4 2".parse()?;
/// assert_eq!(*word, [4, 4, 2]);
/// assert_eq!(word.to_string(), "4 4 2");
/// assert_eq!(word, "4,4,2".parse()?);
/// # Ok::<(), winnathey::ListError>(())
/// ```
#[derive(Clone, PartialEq, Eq, Hash, Default, Debug)]
pub struct Word(Vec<u8>);

impl Word {
    /// The word that `write` leaves in the front of an output with so much room, by the length that it returns.
    pub(crate) fn written<E>(room: usize, write: impl FnOnce(&mut [u8]) -> Result<usize, E>) -> Result<Word, E> {
        let mut letters = alloc::vec![0; room];
        let length = write(&mut letters)?;
        letters.truncate(length);
        Ok(Word(letters))
    }

    /// The word's letters.
    pub fn into_vec(self) -> Vec<u8> {
        self.0
    }
}

impl Deref for Word {
    type Target = [u8];

    fn deref(&self) -> &[u8] {
        &self.0
    }
}

impl AsRef<[u8]> for Word {
    fn as_ref(&self) -> &[u8] {
        self
    }
}

impl From<Vec<u8>> for Word {
    fn from(letters: Vec<u8>) -> Word {
        Word(letters)
    }
}

impl From<&[u8]> for Word {
    fn from(letters: &[u8]) -> Word {
        Word(letters.into())
    }
}

impl FromIterator<u8> for Word {
    fn from_iter<I: IntoIterator<Item = u8>>(letters: I) -> Word {
        Word(letters.into_iter().collect())
    }
}

impl fmt::Display for Word {
    fn fmt(&self, f: &mut fmt::Formatter<'_>) -> fmt::Result {
        spaced(f, self.iter())
    }
}

impl FromStr for Word {
    type Err = ListError;

    /// Reads numbers with blanks (spaces, tabs, line ends) or commas between them: `4 4 2`, `4,4,2`. A number has digits
    /// alone, and no sign.
    fn from_str(text: &str) -> Result<Word, ListError> {
        numbers(text, "letter", 0, 255).map(|letter| letter.map(|letter| letter as u8)).collect()
    }
}
