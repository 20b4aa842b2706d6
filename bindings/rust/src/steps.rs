//! Sets of steps.
use crate::list::{ListError, numbers, spaced};
use core::fmt;
use core::str::FromStr;

/// A set of steps, such as those that a split may use.
///
/// ```
/// use winnathey::Steps;
///
/// let steps = Steps::try_from([1, 2, 5])?;
/// assert_eq!(steps, "1,2,5".parse()?);
/// assert_eq!(steps, Steps::from(0b10011));
/// assert_eq!(steps.to_string(), "1 2 5");
/// assert!(steps.contains(5) && !steps.contains(3));
/// assert!(Steps::try_from([0]).is_err());
/// # Ok::<(), winnathey::ListError>(())
/// ```
#[derive(Clone, Copy, PartialEq, Eq, Hash, Default, Debug)]
pub struct Steps(u64);

impl Steps {
    /// No step.
    pub const NONE: Steps = Steps(0);

    /// The steps of a list, in any order. Each is 1 to 64.
    pub fn new(steps: impl IntoIterator<Item = u8>) -> Result<Steps, ListError> {
        let wrong = |place| ListError::Element { element: "step", place, least: 1, most: 64 };
        steps.into_iter().enumerate().try_fold(Steps::NONE, |Steps(bits), (place, step)| match step {
            1..=64 => Ok(Steps(bits | 1 << (step - 1))),
            _ => Err(wrong(place)),
        })
    }

    /// The steps from 1 to this one, which is 64 at most.
    #[cfg(feature = "alloc")]
    pub(crate) fn up_to(step: u8) -> Steps {
        Steps(u64::MAX.checked_shr(64 - u32::from(step.min(64))).unwrap_or(0))
    }

    /// The set as a number: bit 0 stands for step 1.
    pub fn bits(self) -> u64 {
        self.0
    }

    /// Whether the step is in the set.
    pub fn contains(self, step: u8) -> bool {
        (1..=64).contains(&step) && self.0 >> (step - 1) & 1 == 1
    }

    /// The steps in rising order.
    pub fn iter(self) -> impl Iterator<Item = u8> {
        (1..=64).filter(move |&step| self.contains(step))
    }
}

/// From a number whose bit 0 stands for step 1.
impl From<u64> for Steps {
    fn from(bits: u64) -> Steps {
        Steps(bits)
    }
}

impl TryFrom<&[u8]> for Steps {
    type Error = ListError;

    fn try_from(steps: &[u8]) -> Result<Steps, ListError> {
        Steps::new(steps.iter().copied())
    }
}

impl<const N: usize> TryFrom<[u8; N]> for Steps {
    type Error = ListError;

    fn try_from(steps: [u8; N]) -> Result<Steps, ListError> {
        Steps::new(steps)
    }
}

impl FromStr for Steps {
    type Err = ListError;

    /// Reads steps with blanks or commas between them: `1 2 5`, `1,2,5`.
    fn from_str(text: &str) -> Result<Steps, ListError> {
        numbers(text, "step", 1, 64).try_fold(Steps::NONE, |Steps(bits), step| Ok(Steps(bits | 1 << (step? - 1))))
    }
}

impl fmt::Display for Steps {
    fn fmt(&self, f: &mut fmt::Formatter<'_>) -> fmt::Result {
        spaced(f, self.iter())
    }
}
