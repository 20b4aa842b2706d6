//! Two books compared by what their presets show, number by number. Whether two presets show the same is the library's
//! answer.
use crate::books::Book;
use crate::failure::Failure;
use crate::library::{self, Preset, Refusal};
use std::collections::HashMap;

/// What a book has under a number.
pub enum Side<'a> {
    Missing,
    Refused(Refusal, Option<String>),
    Shown(Preset<'a>, Vec<i8>),
}

#[derive(Clone, Copy, PartialEq, Eq, Debug)]
pub enum Sort {
    /// The same picture by another word.
    Word,
    /// The same picture on a rig of another kind or rank.
    Rig,
    Picture,
    /// Only one of the books has the number.
    Missing,
    /// What one of them shows at least is not known.
    Refused,
    /// Refused in both, with the same bytes.
    RefusedAlike,
}

pub struct Difference<'a> {
    pub number: usize,
    pub sort: Sort,
    pub sides: [Side<'a>; 2],
    /// The number under which the other book shows the picture of each side, if it does.
    pub elsewhere: [Option<usize>; 2],
}

impl Sort {
    /// Whether the books show something else there, or may.
    pub fn counts(self) -> bool {
        matches!(self, Sort::Picture | Sort::Missing | Sort::Refused)
    }

    /// For JSON.
    pub fn name(self) -> &'static str {
        match self {
            Sort::Word => "word",
            Sort::Rig => "rig",
            Sort::Picture => "picture",
            Sort::Missing => "missing",
            Sort::Refused => "refused",
            Sort::RefusedAlike => "refused_alike",
        }
    }
}

impl Difference<'_> {
    /// The screens that show something else, from 1, each with its entry in either window; none of windows with
    /// different numbers of lanes.
    pub fn screens(&self) -> Vec<(usize, i8, i8)> {
        match &self.sides {
            [Side::Shown(_, first), Side::Shown(_, second)] if first.len() == second.len() => {
                let pairs = first.iter().zip(second).enumerate();
                pairs
                    .filter(|(_, (one, other))| one != other)
                    .map(|(at, (one, other))| (at + 1, *one, *other))
                    .collect()
            }
            _ => Vec::new(),
        }
    }
}

/// All numbers under which the books are not equal.
pub fn of<'a>(first: &'a Book, second: &'a Book) -> Result<Vec<Difference<'a>>, Failure> {
    let [ones, others] = [sides(first)?, sides(second)?];
    let shown = [by_picture(&ones), by_picture(&others)];
    let count = ones.len().max(others.len());
    let (mut ones, mut others) = (ones.into_iter(), others.into_iter());
    let mut differences = Vec::new();
    for number in 0..count {
        let sides = [&mut ones, &mut others].map(|side| side.next().unwrap_or(Side::Missing));
        let alike = || first.edition == second.edition && first.record_bytes(number) == second.record_bytes(number);
        if let Some(sort) = compared(&sides, alike)? {
            let other = |side: &Side, in_other: &HashMap<Vec<i8>, usize>| match side {
                Side::Shown(_, window) if sort.counts() => in_other.get(window).copied(),
                _ => None,
            };
            let elsewhere = [other(&sides[0], &shown[1]), other(&sides[1], &shown[0])];
            differences.push(Difference { number, sort, sides, elsewhere });
        }
    }
    Ok(differences)
}

fn sides(book: &Book) -> Result<Vec<Side<'_>>, Failure> {
    let mut sides = Vec::new();
    for (number, read) in book.presets()?.into_iter().enumerate() {
        sides.push(match read {
            Err(refusal) => Side::Refused(refusal, book.record(number, refusal)),
            Ok(preset) => Side::Shown(preset, library::window(preset.rig, preset.word)?),
        });
    }
    Ok(sides)
}

/// The first number with each picture.
fn by_picture(sides: &[Side]) -> HashMap<Vec<i8>, usize> {
    let mut numbers = HashMap::new();
    for (number, side) in sides.iter().enumerate() {
        if let Side::Shown(_, window) = side {
            numbers.entry(window.clone()).or_insert(number);
        }
    }
    numbers
}

fn compared(sides: &[Side; 2], alike: impl FnOnce() -> bool) -> Result<Option<Sort>, Failure> {
    Ok(match sides {
        [Side::Missing, _] | [_, Side::Missing] => Some(Sort::Missing),
        [Side::Refused(..), Side::Refused(..)] if alike() => Some(Sort::RefusedAlike),
        [Side::Refused(..), _] | [_, Side::Refused(..)] => Some(Sort::Refused),
        [Side::Shown(one, _), Side::Shown(other, _)] => match library::same(*one, *other)? {
            false => Some(Sort::Picture),
            true if one.rig != other.rig => Some(Sort::Rig),
            true => (one.word != other.word).then_some(Sort::Word),
        },
    })
}
