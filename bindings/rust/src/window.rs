//! Windows as values.
use crate::MAX_LANES;
use crate::list::{ListError, numbers, spaced};
use core::fmt;
use core::ops::Deref;
use core::str::FromStr;

/// A window: the entries of its lanes, a mirrored one with a minus sign. It is a slice of `i8` in all but its `Display`,
/// which prints the entries with spaces between them, and which [`from_str`](Window::from_str) reads. Whether the entries
/// are those of a group its calls check.
///
/// ```
/// # use winnathey::{Group, Window};
/// let window = "B2".parse::<Group>()?.window_of_word(&[1, 2, 1, 2])?;
/// assert_eq!(*window, [-1, -2]);
/// assert_eq!(window.to_string(), "-1 -2");
/// assert_eq!(window, "-1,-2".parse::<Window>()?);
/// # Ok::<(), Box<dyn std::error::Error>>(())
/// ```
#[derive(Clone, Copy)]
pub struct Window {
    entries: [i8; MAX_LANES],
    lanes: usize,
}

impl Window {
    /// The window that `write` leaves in the front of its output, by the number of lanes that it returns.
    #[cfg(feature = "alloc")]
    pub(crate) fn written<E>(write: impl FnOnce(&mut [i8]) -> Result<usize, E>) -> Result<Window, E> {
        let mut entries = [0; MAX_LANES];
        let lanes = write(&mut entries)?;
        Ok(Window { entries, lanes })
    }
}

impl TryFrom<&[i8]> for Window {
    type Error = ListError;

    /// The window with these entries, of which there are 64 at most.
    fn try_from(entries: &[i8]) -> Result<Window, ListError> {
        let mut window = Window { entries: [0; MAX_LANES], lanes: entries.len() };
        window.entries.get_mut(..entries.len()).ok_or(ListError::TooLong)?.copy_from_slice(entries);
        Ok(window)
    }
}

impl FromStr for Window {
    type Err = ListError;

    /// Reads entries with blanks or commas between them: `3 -5 1 4 -2`, `3,-5,1,4,-2`.
    fn from_str(text: &str) -> Result<Window, ListError> {
        let mut window = Window { entries: [0; MAX_LANES], lanes: 0 };
        for entry in numbers(text, "entry", -128, 127) {
            *window.entries.get_mut(window.lanes).ok_or(ListError::TooLong)? = entry? as i8;
            window.lanes += 1;
        }
        Ok(window)
    }
}

impl Deref for Window {
    type Target = [i8];

    fn deref(&self) -> &[i8] {
        &self.entries[..self.lanes]
    }
}

impl AsRef<[i8]> for Window {
    fn as_ref(&self) -> &[i8] {
        self
    }
}

impl PartialEq for Window {
    fn eq(&self, other: &Window) -> bool {
        **self == **other
    }
}

impl Eq for Window {}

impl core::hash::Hash for Window {
    fn hash<H: core::hash::Hasher>(&self, state: &mut H) {
        (**self).hash(state);
    }
}

impl fmt::Debug for Window {
    fn fmt(&self, f: &mut fmt::Formatter<'_>) -> fmt::Result {
        write!(f, "Window({:?})", &**self)
    }
}

impl fmt::Display for Window {
    fn fmt(&self, f: &mut fmt::Formatter<'_>) -> fmt::Result {
        spaced(f, self.iter())
    }
}
