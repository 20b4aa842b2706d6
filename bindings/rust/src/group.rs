//! Groups: a kind and a rank, checked once, and the calls on their words and windows.
use crate::lent::{self, Crossings};
use crate::{Kind, MAX_LANES, MAX_NORMAL_FORM, MAX_TABLE_COUNTS, MAX_WORD, Refusal, Steps, Window, Word};
use alloc::vec;
use alloc::vec::Vec;
use core::error::Error;
use core::fmt;
use core::str::FromStr;

/// The group of a kind and a rank that the library accepts; document 01 calls it a rig.
///
/// Its calls take words and windows as slices, and refuse with checks 7 and 8 a wrong word, with 9 to 11 a wrong window.
///
/// ```
/// use winnathey::{Kind, Group};
///
/// let group = Group::new(Kind::D, 5)?;
/// assert_eq!(group.to_string(), "D5");
/// assert_eq!(group.lanes(), 5);
/// assert_eq!(Group::new(Kind::D, 3).unwrap_err().number(), 6);
/// # Ok::<(), winnathey::Refusal>(())
/// ```
#[derive(Clone, Copy, PartialEq, Eq, Hash, Debug)]
pub struct Group {
    kind: Kind,
    rank: u8,
    lanes: u8,
}

/// A rewrite that used a rule.
#[derive(Clone, PartialEq, Eq, Hash, Debug)]
pub struct Rewrite {
    /// The rule's family, 1 to 7.
    pub family: u8,
    /// The rule's i.
    pub i: u8,
    /// The rule's j, or 0.
    pub j: u8,
    /// The new word.
    pub word: Word,
}

/// One step of a [`Rewriting`].
#[derive(Clone, Copy, PartialEq, Eq, Hash, Debug)]
pub struct RewriteStep {
    /// The rule's family, 1 to 7.
    pub family: u8,
    /// The place, counted from 0.
    pub place: usize,
    /// The letters left after the step.
    pub length: usize,
}

/// The rewriting of a word to its end.
#[derive(Clone, PartialEq, Eq, Hash, Debug)]
pub struct Rewriting {
    /// Its steps.
    pub steps: Vec<RewriteStep>,
    /// The final word, which is the normal form.
    pub word: Word,
}

/// A word split by allowed steps.
#[derive(Clone, PartialEq, Eq, Hash, Debug)]
pub struct Split {
    /// The word over allowed steps.
    pub first: Word,
    /// What is left: no shortest word of its window begins with an allowed step.
    pub second: Word,
}

/// The windows of a group by their lengths.
#[derive(Clone, PartialEq, Eq, Hash, Debug)]
pub struct DelayTable {
    /// How many windows have the length 0, 1, .. up to the greatest.
    pub counts: Vec<u64>,
    /// The one window with the greatest length.
    pub window: Window,
    /// Its normal form.
    pub normal_form: Word,
}

impl Group {
    /// The group of this kind and rank. Refusal 6.
    pub fn new(kind: Kind, rank: u8) -> Result<Group, Refusal> {
        let lanes = lent::window_of_word(kind.into(), rank, &[], &mut [0; MAX_LANES])?;
        Ok(Group { kind, rank, lanes: lanes as u8 })
    }

    /// The kind.
    pub fn kind(self) -> Kind {
        self.kind
    }

    /// The rank, which is the highest step.
    pub fn rank(self) -> u8 {
        self.rank
    }

    /// How many lanes a window has.
    pub fn lanes(self) -> usize {
        self.lanes.into()
    }

    /// All steps.
    pub fn steps(self) -> Steps {
        Steps::up_to(self.rank)
    }

    /// The window of a word. Refusals 7, 8.
    pub fn window_of_word(self, word: &[u8]) -> Result<Window, Refusal> {
        Window::written(|out| lent::window_of_word(self.kind.into(), self.rank, word, out))
    }

    /// The normal form of a word. Refusals 7, 8.
    pub fn normal_form_of_word(self, word: &[u8]) -> Result<Word, Refusal> {
        Word::written(MAX_NORMAL_FORM, |out| lent::normal_form_of_word(self.kind.into(), self.rank, word, out))
    }

    /// The normal form of a window. Refusals 9 to 11.
    ///
    /// ```
    /// # use winnathey::Group;
    /// let group: Group = "D5".parse()?;
    /// assert_eq!(*group.normal_form_of_window(&[3, -5, 1, 4, -2])?, [5, 2, 3, 5, 1, 2]);
    /// # Ok::<(), Box<dyn std::error::Error>>(())
    /// ```
    pub fn normal_form_of_window(self, window: &[i8]) -> Result<Word, Refusal> {
        Word::written(MAX_NORMAL_FORM, |out| lent::normal_form_of_window(self.kind.into(), self.rank, window, out))
    }

    /// The product of two words, the first followed by the second, as a normal form. Refusals 7, 8.
    pub fn product_of_words(self, first: &[u8], second: &[u8]) -> Result<Word, Refusal> {
        Word::written(MAX_NORMAL_FORM, |out| lent::product_of_words(self.kind.into(), self.rank, first, second, out))
    }

    /// The product of two windows: its entry at i is the first's entry at the second's entry at i. Refusals 9 to 11.
    pub fn product_of_windows(self, first: &[i8], second: &[i8]) -> Result<Window, Refusal> {
        Window::written(|out| lent::product_of_windows(self.kind.into(), self.rank, first, second, out))
    }

    /// The inverse of a word, as a normal form. Refusals 7, 8.
    pub fn inverse_of_word(self, word: &[u8]) -> Result<Word, Refusal> {
        Word::written(MAX_NORMAL_FORM, |out| lent::inverse_of_word(self.kind.into(), self.rank, word, out))
    }

    /// The inverse of a window. Refusals 9 to 11.
    ///
    /// ```
    /// # use winnathey::Group;
    /// let group: Group = "D5".parse()?;
    /// let window = group.window_of_word(&[5, 2, 3, 5, 1, 2])?;
    /// let inverse = group.inverse_of_window(&window)?;
    /// assert_eq!(group.product_of_windows(&window, &inverse)?, group.window_of_word(&[])?);
    /// # Ok::<(), Box<dyn std::error::Error>>(())
    /// ```
    pub fn inverse_of_window(self, window: &[i8]) -> Result<Window, Refusal> {
        Window::written(|out| lent::inverse_of_window(self.kind.into(), self.rank, window, out))
    }

    /// The length of a word's normal form. Refusals 7, 8.
    pub fn length_of_word(self, word: &[u8]) -> Result<usize, Refusal> {
        lent::length_of_word(self.kind.into(), self.rank, word)
    }

    /// The length of a window's normal form. Refusals 9 to 11.
    pub fn length_of_window(self, window: &[i8]) -> Result<usize, Refusal> {
        lent::length_of_window(self.kind.into(), self.rank, window)
    }

    /// The length of a word's normal form as its three counts. Refusals 7, 8.
    pub fn crossings_of_word(self, word: &[u8]) -> Result<Crossings, Refusal> {
        lent::crossings_of_word(self.kind.into(), self.rank, word)
    }

    /// The length of a window's normal form as its three counts. Refusals 9 to 11.
    pub fn crossings_of_window(self, window: &[i8]) -> Result<Crossings, Refusal> {
        lent::crossings_of_window(self.kind.into(), self.rank, window)
    }

    /// The delay table, up to rank 19 in kind A and 16 in B and D. Refusal 20.
    ///
    /// ```
    /// # use winnathey::Group;
    /// let table = "B2".parse::<Group>()?.delay_table()?;
    /// assert_eq!(table.counts, [1, 2, 2, 2, 1]);
    /// assert_eq!(*table.window, [-1, -2]);
    /// assert_eq!(*table.normal_form, [2, 1, 2, 1]);
    /// # Ok::<(), Box<dyn std::error::Error>>(())
    /// ```
    pub fn delay_table(self) -> Result<DelayTable, Refusal> {
        let (mut counts, mut lengths) = (vec![0; MAX_TABLE_COUNTS], None);
        let mut form = vec![0; MAX_NORMAL_FORM];
        let window = Window::written(|out| {
            let written = lent::delay_table(self.kind.into(), self.rank, &mut counts, out, &mut form)?;
            lengths = Some(written);
            Ok(written.window)
        })?;
        if let Some(written) = lengths {
            counts.truncate(written.counts);
            form.truncate(written.normal_form);
        }
        Ok(DelayTable { counts, window, normal_form: form.into() })
    }

    /// Whether a word of this group and a word of that one look alike: as many lanes and the same window. Refusals 7, 8.
    ///
    /// ```
    /// # use winnathey::Group;
    /// let (a, b): (Group, Group) = ("A3".parse()?, "B4".parse()?);
    /// assert!(a.same(&[1, 2], b, &[1, 2])?);
    /// # Ok::<(), Box<dyn std::error::Error>>(())
    /// ```
    pub fn same(self, word: &[u8], other: Group, other_word: &[u8]) -> Result<bool, Refusal> {
        let preset = |group: Group, word| lent::Preset { kind: group.kind.into(), rank: group.rank, word };
        lent::same(preset(self, word), preset(other, other_word))
    }

    /// The better of two words with one window: the shorter, at equal lengths the one earlier in the dictionary, at equal
    /// words the first. `None` if the windows differ. Refusals 7, 8, the first word's first.
    ///
    /// ```
    /// # use winnathey::Group;
    /// let group: Group = "A2".parse()?;
    /// assert_eq!(group.better(&[1, 2, 1], &[2, 1, 2])?, Some(&[2, 1, 2][..]));
    /// assert_eq!(group.better(&[1], &[2])?, None);
    /// # Ok::<(), Box<dyn std::error::Error>>(())
    /// ```
    pub fn better<'a>(self, first: &'a [u8], second: &'a [u8]) -> Result<Option<&'a [u8]>, Refusal> {
        lent::better(self.kind.into(), self.rank, first, second)
    }

    /// One rewrite of a word at a place, counted from 0; `None` if no rule fits there. Refusals 7, 8, 12.
    ///
    /// ```
    /// # use winnathey::Group;
    /// let group: Group = "D4".parse()?;
    /// let used = group.rewrite(&[3, 4], 0)?.expect("a rule fits");
    /// assert_eq!((used.family, used.i, used.j), (2, 3, 4));
    /// assert_eq!(*used.word, [4, 3]);
    /// assert_eq!(group.rewrite(&[4, 3], 0)?, None);
    /// # Ok::<(), Box<dyn std::error::Error>>(())
    /// ```
    pub fn rewrite(self, word: &[u8], place: usize) -> Result<Option<Rewrite>, Refusal> {
        let mut rule = None;
        let word = Word::written(word.len().min(MAX_WORD), |out| {
            Ok(match lent::rewrite(self.kind.into(), self.rank, word, place, out)? {
                lent::Rewrite::Used { family, i, j, length } => {
                    rule = Some((family, i, j));
                    length
                }
                lent::Rewrite::NoneFits => 0,
            })
        })?;
        Ok(rule.map(|(family, i, j)| Rewrite { family, i, j, word }))
    }

    /// How many steps [`rewrite_to_end`](Group::rewrite_to_end) takes. Refusals 7, 8.
    pub fn rewrite_steps(self, word: &[u8]) -> Result<usize, Refusal> {
        lent::rewrite_steps(self.kind.into(), self.rank, word)
    }

    /// Rewrites a word always at the lowest place where a rule fits, until none fits. Refusals 7, 8.
    ///
    /// ```
    /// # use winnathey::{Group, RewriteStep};
    /// let rewriting = "D5".parse::<Group>()?.rewrite_to_end(&[4, 4, 2, 5, 3, 5, 1, 2])?;
    /// assert_eq!(rewriting.steps[0], RewriteStep { family: 1, place: 0, length: 6 });
    /// assert_eq!(rewriting.word.to_string(), "5 2 3 5 1 2");
    /// # Ok::<(), Box<dyn std::error::Error>>(())
    /// ```
    pub fn rewrite_to_end(self, word: &[u8]) -> Result<Rewriting, Refusal> {
        let (kind, rank) = (self.kind.into(), self.rank);
        let steps = lent::rewrite_steps(kind, rank, word)?;
        let (mut families, mut places, mut lengths) = (vec![0; steps], vec![0; steps], vec![0; steps]);
        let word = Word::written(word.len(), |out| {
            lent::rewrite_to_end(kind, rank, word, &mut families, &mut places, &mut lengths, out)
                .map(|ended| ended.length)
        })?;
        let step = |((family, place), length): ((u8, u16), u16)| RewriteStep {
            family,
            place: place.into(),
            length: length.into(),
        };
        Ok(Rewriting { steps: families.into_iter().zip(places).zip(lengths).map(step).collect(), word })
    }

    /// Which letters of the present word's normal form to keep for the simpler word's window: their places, counted from
    /// 0; `None` if removing letters does not lead there. Refusals 7, 8, the present word's first.
    ///
    /// ```
    /// # use winnathey::Group;
    /// let group: Group = "A2".parse()?;
    /// assert_eq!(group.fallback(&[2, 1], &[1])?, Some(vec![1]));
    /// assert_eq!(group.fallback(&[1], &[2])?, None);
    /// # Ok::<(), Box<dyn std::error::Error>>(())
    /// ```
    pub fn fallback(self, present: &[u8], simpler: &[u8]) -> Result<Option<Vec<usize>>, Refusal> {
        let mut places = vec![0; MAX_NORMAL_FORM];
        let kept = lent::fallback(self.kind.into(), self.rank, present, simpler, &mut places)?;
        Ok(kept.map(|kept| places[..kept].iter().map(|&place| place.into()).collect()))
    }

    /// A word split by allowed steps. Refusals 16, 7, 8.
    ///
    /// ```
    /// # use winnathey::Group;
    /// let split = "A2".parse::<Group>()?.split("1".parse()?, &[1, 2, 1])?;
    /// assert_eq!((&*split.first, &*split.second), (&[1][..], &[2, 1][..]));
    /// # Ok::<(), Box<dyn std::error::Error>>(())
    /// ```
    pub fn split(self, allowed: Steps, word: &[u8]) -> Result<Split, Refusal> {
        let (mut first, mut second) = (vec![0; MAX_NORMAL_FORM], vec![0; MAX_NORMAL_FORM]);
        let (kind, rank) = (self.kind.into(), self.rank);
        let lengths = lent::split(kind, rank, allowed.bits(), word, &mut first, &mut second)?;
        first.truncate(lengths.first);
        second.truncate(lengths.second);
        Ok(Split { first: first.into(), second: second.into() })
    }

    /// The normal form of the word over allowed steps that leads from one window to another. Refusals 16, 9 to 11 for
    /// `from`, then for `to`, 19 if no such word does.
    ///
    /// ```
    /// # use winnathey::{Group, Refusal};
    /// let group: Group = "A3".parse()?;
    /// let (from, to) = (group.window_of_word(&[])?, [3, 2, 1, 4]);
    /// assert_eq!(*group.between(group.steps(), &from, &to)?, [2, 1, 2]);
    /// assert_eq!(group.between("1 3".parse()?, &from, &to), Err(Refusal::Unreachable));
    /// # Ok::<(), Box<dyn std::error::Error>>(())
    /// ```
    pub fn between(self, allowed: Steps, from: &[i8], to: &[i8]) -> Result<Word, Refusal> {
        Word::written(MAX_NORMAL_FORM, |out| lent::between(self.kind.into(), self.rank, allowed.bits(), from, to, out))
    }
}

impl fmt::Display for Group {
    fn fmt(&self, f: &mut fmt::Formatter<'_>) -> fmt::Result {
        write!(f, "{}{}", self.kind, self.rank)
    }
}

/// What was to be read as a [`Group`] is none.
#[derive(Clone, Copy, PartialEq, Eq, Hash, Debug)]
#[non_exhaustive]
pub enum ParseGroupError {
    /// It is not the letter of a kind followed by a number.
    Form,
    /// The rank is none of the kind's.
    Refused(Refusal),
}

impl fmt::Display for ParseGroupError {
    fn fmt(&self, f: &mut fmt::Formatter<'_>) -> fmt::Result {
        match self {
            ParseGroupError::Form => f.write_str("a group is A, B or D followed by its rank, as in D5"),
            ParseGroupError::Refused(refusal) => refusal.fmt(f),
        }
    }
}

impl Error for ParseGroupError {}

impl FromStr for Group {
    type Err = ParseGroupError;

    /// Reads `D5` or `D 5`. Any number of digits is a rank, if one that is refused.
    fn from_str(text: &str) -> Result<Group, ParseGroupError> {
        let kind = text.get(..1).filter(|letter| !letter.starts_with(|c: char| c.is_ascii_digit()));
        let kind = kind.and_then(|letter| letter.parse().ok()).ok_or(ParseGroupError::Form)?;
        let digits = text[1..].trim_start();
        if digits.is_empty() || !digits.bytes().all(|digit| digit.is_ascii_digit()) {
            return Err(ParseGroupError::Form);
        }
        // What is no byte is above every rank, as the highest byte is.
        Group::new(kind, digits.parse().unwrap_or(u8::MAX)).map_err(ParseGroupError::Refused)
    }
}
