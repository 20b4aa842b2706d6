//! The library's calls, with outputs that are always long enough. No other module knows the crate.
use std::fmt;
pub use winnathey::lent::{Edition, Kind, MAX_BOOK, MAX_LANES, MAX_WORD, Refusal};
use winnathey::lent::{MAX_NORMAL_FORM, MAX_TABLE_COUNTS, Rewrite};

/// The version of the library's crate, and the hash of the archive that this program is linked with.
pub const VERSION: &str = env!("CARGO_PKG_VERSION");
pub const ARCHIVE_SHA256: &str = env!("WINNATHEY_ARCHIVE_SHA256");

/// Kind and rank, whether accepted or not.
#[derive(Clone, Copy, PartialEq, Eq)]
pub struct Rig {
    pub kind: Kind,
    pub rank: u8,
}

impl fmt::Display for Rig {
    fn fmt(&self, f: &mut fmt::Formatter<'_>) -> fmt::Result {
        write!(f, "{}{}", self.kind, self.rank)
    }
}

/// The kind of that number, which need not be one: the library then refuses it.
pub fn kind(number: u8) -> Kind {
    Kind(number)
}

/// A preset of a book.
#[derive(Clone, Copy)]
pub struct Preset<'a> {
    pub rig: Rig,
    pub word: &'a [u8],
}

impl<'a> Preset<'a> {
    fn of(preset: winnathey::lent::Preset<'a>) -> Preset<'a> {
        Preset { rig: Rig { kind: preset.kind, rank: preset.rank }, word: preset.word }
    }

    fn lent(self) -> winnathey::lent::Preset<'a> {
        winnathey::lent::Preset { kind: self.rig.kind, rank: self.rig.rank, word: self.word }
    }
}

/// A length as its three counts.
#[derive(Clone, Copy)]
pub struct Crossings {
    pub plain_pairs: usize,
    pub pairs_against_a_mirrored_lane: usize,
    pub mirrored_lanes: usize,
    pub total: usize,
}

/// The rule that a rewrite used, and the length of the new word.
#[derive(Clone, Copy)]
pub struct Rule {
    pub family: u8,
    pub i: u8,
    pub j: u8,
    pub length: usize,
}

/// What a call writes to an output of so many places.
fn written<T: Clone + Default, R>(room: usize, call: impl FnOnce(&mut [T]) -> Result<usize, R>) -> Result<Vec<T>, R> {
    let mut output = vec![T::default(); room];
    let length = call(&mut output)?;
    output.truncate(length);
    Ok(output)
}

pub fn window(rig: Rig, word: &[u8]) -> Result<Vec<i8>, Refusal> {
    written(MAX_LANES, |out| winnathey::lent::window_of_word(rig.kind, rig.rank, word, out))
}

pub fn normal_form(rig: Rig, word: &[u8]) -> Result<Vec<u8>, Refusal> {
    written(MAX_NORMAL_FORM, |out| winnathey::lent::normal_form_of_word(rig.kind, rig.rank, word, out))
}

pub fn normal_form_of_window(rig: Rig, window: &[i8]) -> Result<Vec<u8>, Refusal> {
    written(MAX_NORMAL_FORM, |out| winnathey::lent::normal_form_of_window(rig.kind, rig.rank, window, out))
}

pub fn product_of_words(rig: Rig, first: &[u8], second: &[u8]) -> Result<Vec<u8>, Refusal> {
    written(MAX_NORMAL_FORM, |out| winnathey::lent::product_of_words(rig.kind, rig.rank, first, second, out))
}

pub fn product_of_windows(rig: Rig, first: &[i8], second: &[i8]) -> Result<Vec<i8>, Refusal> {
    written(MAX_LANES, |out| winnathey::lent::product_of_windows(rig.kind, rig.rank, first, second, out))
}

pub fn inverse_of_word(rig: Rig, word: &[u8]) -> Result<Vec<u8>, Refusal> {
    written(MAX_NORMAL_FORM, |out| winnathey::lent::inverse_of_word(rig.kind, rig.rank, word, out))
}

pub fn inverse_of_window(rig: Rig, window: &[i8]) -> Result<Vec<i8>, Refusal> {
    written(MAX_LANES, |out| winnathey::lent::inverse_of_window(rig.kind, rig.rank, window, out))
}

pub fn length(rig: Rig, word: &[u8]) -> Result<usize, Refusal> {
    winnathey::lent::length_of_word(rig.kind, rig.rank, word)
}

pub fn length_of_window(rig: Rig, window: &[i8]) -> Result<usize, Refusal> {
    winnathey::lent::length_of_window(rig.kind, rig.rank, window)
}

pub fn crossings(rig: Rig, word: &[u8]) -> Result<Crossings, Refusal> {
    let crossings = winnathey::lent::crossings_of_word(rig.kind, rig.rank, word)?;
    Ok(Crossings {
        plain_pairs: crossings.inversions,
        pairs_against_a_mirrored_lane: crossings.negative_sum_pairs,
        mirrored_lanes: crossings.negatives,
        total: crossings.total(),
    })
}

pub fn lanes(rig: Rig) -> Result<usize, Refusal> {
    Ok(window(rig, &[])?.len())
}

pub fn same(first: Preset, second: Preset) -> Result<bool, Refusal> {
    winnathey::lent::same(first.lent(), second.lent())
}

/// None if they show different windows.
pub fn better<'a>(rig: Rig, first: &'a [u8], second: &'a [u8]) -> Result<Option<&'a [u8]>, Refusal> {
    winnathey::lent::better(rig.kind, rig.rank, first, second)
}

/// The first and the second word of a split.
pub fn split(rig: Rig, allowed: u64, word: &[u8]) -> Result<(Vec<u8>, Vec<u8>), Refusal> {
    let (mut first, mut second) = (vec![0; MAX_NORMAL_FORM], vec![0; MAX_NORMAL_FORM]);
    let lengths = winnathey::lent::split(rig.kind, rig.rank, allowed, word, &mut first, &mut second)?;
    first.truncate(lengths.first);
    second.truncate(lengths.second);
    Ok((first, second))
}

pub fn between(rig: Rig, allowed: u64, from: &[i8], to: &[i8]) -> Result<Vec<u8>, Refusal> {
    written(MAX_NORMAL_FORM, |out| winnathey::lent::between(rig.kind, rig.rank, allowed, from, to, out))
}

/// The places to keep, or none for a no.
pub fn fallback(rig: Rig, present: &[u8], simpler: &[u8]) -> Result<Option<Vec<u16>>, Refusal> {
    let mut places = vec![0; MAX_NORMAL_FORM];
    let kept = winnathey::lent::fallback(rig.kind, rig.rank, present, simpler, &mut places)?;
    Ok(kept.map(|kept| places[..kept].to_vec()))
}

pub struct Delays {
    /// How many windows have each length, from 0.
    pub counts: Vec<u64>,
    /// The longest window, and its normal form.
    pub window: Vec<i8>,
    pub form: Vec<u8>,
}

pub fn delays(rig: Rig) -> Result<Delays, Refusal> {
    let (mut counts, mut window, mut form) = (vec![0; MAX_TABLE_COUNTS], vec![0; MAX_LANES], vec![0; MAX_NORMAL_FORM]);
    let lengths = winnathey::lent::delay_table(rig.kind, rig.rank, &mut counts, &mut window, &mut form)?;
    counts.truncate(lengths.counts);
    window.truncate(lengths.window);
    form.truncate(lengths.normal_form);
    Ok(Delays { counts, window, form })
}

/// None where no rule fits.
pub fn rewrite(rig: Rig, word: &[u8], place: usize, out: &mut [u8]) -> Result<Option<Rule>, Refusal> {
    Ok(match winnathey::lent::rewrite(rig.kind, rig.rank, word, place, out)? {
        Rewrite::Used { family, i, j, length } => Some(Rule { family, i, j, length }),
        Rewrite::NoneFits => None,
    })
}

pub fn rewrite_steps(rig: Rig, word: &[u8]) -> Result<usize, Refusal> {
    winnathey::lent::rewrite_steps(rig.kind, rig.rank, word)
}

/// The lists of a rewriting to its end: of each step the rule's family, the place and the length left; and the normal
/// form.
pub struct Rewriting {
    pub families: Vec<u8>,
    pub places: Vec<u16>,
    pub lengths: Vec<u16>,
    pub form: Vec<u8>,
}

/// The library is lent lists of so many places; it refuses (15) where these are too few.
pub fn rewrite_to_end(rig: Rig, word: &[u8], room: usize) -> Result<Rewriting, Refusal> {
    let (mut families, mut places, mut lengths) = (vec![0; room], vec![0; room], vec![0; room]);
    let mut form = vec![0; MAX_NORMAL_FORM];
    let Rig { kind, rank } = rig;
    let ended = winnathey::lent::rewrite_to_end(kind, rank, word, &mut families, &mut places, &mut lengths, &mut form)?;
    form.truncate(ended.length);
    Ok(Rewriting { families, places, lengths, form })
}

pub fn book_check(edition: Edition, book: &[u8]) -> Result<usize, Refusal> {
    winnathey::lent::book_check(edition, book)
}

pub fn preset(edition: Edition, book: &[u8], number: usize) -> Result<Preset<'_>, Refusal> {
    winnathey::lent::preset(edition, book, number).map(Preset::of)
}

/// Each preset of a book, or the refusal of its record.
pub fn presets(edition: Edition, book: &[u8]) -> Result<Vec<Result<Preset<'_>, Refusal>>, Refusal> {
    Ok(winnathey::lent::presets(edition, book)?.map(|preset| preset.map(Preset::of)).collect())
}

/// A book with one preset more, in an output of so many bytes.
pub fn append(edition: Edition, book: &[u8], rig: Rig, word: &[u8], room: usize) -> Result<Vec<u8>, Refusal> {
    written(room, |out| winnathey::lent::append(edition, book, Preset { rig, word }.lent(), out))
}

/// A book with several presets more, or the place of the first that it does not take, from 0, and why.
pub fn append_all(edition: Edition, book: &[u8], presets: &[Preset]) -> Result<Vec<u8>, (usize, Refusal)> {
    let mut book = winnathey::Book::from_bytes(edition, book).map_err(|refusal| (0, refusal))?;
    let mut all = Vec::with_capacity(presets.len());
    for (place, Preset { rig, word }) in presets.iter().enumerate() {
        let kind = winnathey::Kind::try_from(rig.kind.0).map_err(|_| (place, Refusal::Kind))?;
        all.push(winnathey::Preset { kind, rank: rig.rank, word });
    }
    book.append_all(all).map_err(|refused| (refused.place, refused.refusal))?;
    Ok(book.into_bytes())
}

/// A book in the other edition, in an output of so many bytes.
pub fn convert(edition: Edition, book: &[u8], room: usize) -> Result<Vec<u8>, Refusal> {
    written(room, |out| winnathey::lent::convert(edition, book, out))
}

/// A book with one preset less.
pub fn remove(edition: Edition, book: &[u8], number: usize) -> Result<Vec<u8>, Refusal> {
    edited(edition, book, |book| book.remove(number))
}

/// A book with another preset in one's place.
pub fn replace(edition: Edition, book: &[u8], number: usize, rig: Rig, word: &[u8]) -> Result<Vec<u8>, Refusal> {
    let kind = winnathey::Kind::try_from(rig.kind.0).map_err(|_| Refusal::Kind)?;
    let group = winnathey::Group::new(kind, rig.rank)?;
    edited(edition, book, |book| book.replace(number, group, word))
}

/// A book with one of its presets at another number.
pub fn move_to(edition: Edition, book: &[u8], from: usize, to: usize) -> Result<Vec<u8>, Refusal> {
    edited(edition, book, |book| book.move_to(from, to))
}

fn edited(
    edition: Edition,
    book: &[u8],
    edit: impl FnOnce(&mut winnathey::Book) -> Result<(), Refusal>,
) -> Result<Vec<u8>, Refusal> {
    let mut book = winnathey::Book::from_bytes(edition, book)?;
    edit(&mut book)?;
    Ok(book.into_bytes())
}

/// The least and the greatest rank of a kind that the library does not refuse (6); none where there is no such kind.
pub fn ranks(kind: Kind) -> Option<(u8, u8)> {
    range(|rank| window(Rig { kind, rank }, &[]).is_ok())
}

/// The same for the presets of a book.
pub fn ranks_in(edition: Edition, kind: Kind) -> Option<(u8, u8)> {
    // Kind A at rank 1 is refused for another reason (21).
    range(|rank| match append(edition, &[], Rig { kind, rank }, &[], MAX_BOOK) {
        Ok(_) => true,
        Err(refusal) => refusal.number() == 21,
    })
}

fn range(accepted: impl Fn(u8) -> bool) -> Option<(u8, u8)> {
    let least = (0..=u8::MAX).find(|&rank| accepted(rank))?;
    let greatest = (0..=u8::MAX).rev().find(|&rank| accepted(rank))?;
    Some((least, greatest))
}
