//! The safe Rust functions with the parameters and the answers of the C interface: the same number, and in the outputs
//! what the safe function wrote or returned. None where it cannot be called so, as with a kind that is no byte.
use winnathey::lent::{Crossings, DelayTable, Edition, Kind, Preset, Refusal, Rewrite, Split};
use winnathey::raw;

/// A kind and a rank that are bytes.
fn rig(kind: u32, rank: u32) -> Option<(Kind, u8)> {
    Some((Kind(kind.try_into().ok()?), rank.try_into().ok()?))
}

fn a_preset(kind: u32, rank: u32, word: &[u8]) -> Option<Preset<'_>> {
    rig(kind, rank).map(|(kind, rank)| Preset { kind, rank, word })
}

fn coded(answer: Result<usize, Refusal>) -> i64 {
    match answer {
        Ok(answer) => answer as i64,
        Err(refusal) => -i64::from(refusal.number()),
    }
}

pub fn window_of_word(kind: u32, rank: u32, word: &[u8], out: &mut [i8]) -> Option<i64> {
    rig(kind, rank).map(|(kind, rank)| coded(winnathey::lent::window_of_word(kind, rank, word, out)))
}

pub fn normal_form_of_word(kind: u32, rank: u32, word: &[u8], out: &mut [u8]) -> Option<i64> {
    rig(kind, rank).map(|(kind, rank)| coded(winnathey::lent::normal_form_of_word(kind, rank, word, out)))
}

pub fn normal_form_of_window(kind: u32, rank: u32, window: &[i8], out: &mut [u8]) -> Option<i64> {
    rig(kind, rank).map(|(kind, rank)| coded(winnathey::lent::normal_form_of_window(kind, rank, window, out)))
}

pub fn product_of_words(kind: u32, rank: u32, first: &[u8], second: &[u8], out: &mut [u8]) -> Option<i64> {
    rig(kind, rank).map(|(kind, rank)| coded(winnathey::lent::product_of_words(kind, rank, first, second, out)))
}

pub fn product_of_windows(kind: u32, rank: u32, first: &[i8], second: &[i8], out: &mut [i8]) -> Option<i64> {
    rig(kind, rank).map(|(kind, rank)| coded(winnathey::lent::product_of_windows(kind, rank, first, second, out)))
}

pub fn inverse_of_word(kind: u32, rank: u32, word: &[u8], out: &mut [u8]) -> Option<i64> {
    rig(kind, rank).map(|(kind, rank)| coded(winnathey::lent::inverse_of_word(kind, rank, word, out)))
}

pub fn inverse_of_window(kind: u32, rank: u32, window: &[i8], out: &mut [i8]) -> Option<i64> {
    rig(kind, rank).map(|(kind, rank)| coded(winnathey::lent::inverse_of_window(kind, rank, window, out)))
}

pub fn length_of_word(kind: u32, rank: u32, word: &[u8]) -> Option<i64> {
    rig(kind, rank).map(|(kind, rank)| coded(winnathey::lent::length_of_word(kind, rank, word)))
}

pub fn length_of_window(kind: u32, rank: u32, window: &[i8]) -> Option<i64> {
    rig(kind, rank).map(|(kind, rank)| coded(winnathey::lent::length_of_window(kind, rank, window)))
}

/// Writes what a safe function returned to the front of a list, for which it always has room.
fn listed<const N: usize>(list: &mut [u64], numbers: Option<[usize; N]>) {
    if let Some(numbers) = numbers {
        list[..N].copy_from_slice(&numbers.map(|number| number as u64));
    }
}

fn counted(answer: Result<Crossings, Refusal>, counts: &mut [u64]) -> i64 {
    listed(
        counts,
        answer
            .ok()
            .map(|Crossings { inversions, negative_sum_pairs, negatives }| [inversions, negative_sum_pairs, negatives]),
    );
    coded(answer.map(|crossings| crossings.total()))
}

pub fn crossings_of_word(kind: u32, rank: u32, word: &[u8], counts: &mut [u64]) -> Option<i64> {
    let (kind, rank) = rig(kind, rank)?;
    let counts = counts.get_mut(..3)?;
    Some(counted(winnathey::lent::crossings_of_word(kind, rank, word), counts))
}

pub fn crossings_of_window(kind: u32, rank: u32, window: &[i8], counts: &mut [u64]) -> Option<i64> {
    let (kind, rank) = rig(kind, rank)?;
    let counts = counts.get_mut(..3)?;
    Some(counted(winnathey::lent::crossings_of_window(kind, rank, window), counts))
}

pub fn delay_table(
    kind: u32,
    rank: u32,
    counts: &mut [u64],
    window: &mut [i8],
    form: &mut [u8],
    lengths: &mut [u64],
) -> Option<i64> {
    let (kind, rank) = rig(kind, rank)?;
    let lengths = lengths.get_mut(..3)?;
    let answer = winnathey::lent::delay_table(kind, rank, counts, window, form);
    listed(lengths, answer.ok().map(|DelayTable { counts, window, normal_form }| [counts, window, normal_form]));
    Some(coded(answer.map(|table| table.normal_form)))
}

pub fn same(kind1: u32, rank1: u32, word1: &[u8], kind2: u32, rank2: u32, word2: &[u8]) -> Option<i64> {
    let (first, second) = (a_preset(kind1, rank1, word1)?, a_preset(kind2, rank2, word2)?);
    Some(coded(winnathey::lent::same(first, second).map(usize::from)))
}

/// The number for a slice is the library's own if that stands for this very slice: two empty words may lie at one
/// address, so that the slice alone cannot tell 1 from 2. A refusal is that of `same`.
pub fn better(kind: u32, rank: u32, first: &[u8], second: &[u8]) -> Option<i64> {
    let (safe_kind, safe_rank) = rig(kind, rank)?;
    let word = winnathey::lent::better(safe_kind, safe_rank, first, second);
    let number = raw::better(kind, rank, first, second);
    let right = match number {
        1 | 2 => {
            word.is_ok_and(|word| word.is_some_and(|word| std::ptr::eq(word, [first, second][number as usize - 1])))
        }
        _ => {
            let same = raw::same(kind, rank, first, kind, rank, second);
            word.map_or_else(|refusal| -i64::from(refusal.number()), |word| word.map_or(0, |_| i64::MIN)) == same
        }
    };
    Some(if right { number } else { i64::MIN })
}

/// The safe function always has room for the rule.
pub fn rewrite(kind: u32, rank: u32, word: &[u8], place: usize, out: &mut [u8], rule: &mut [u8]) -> Option<i64> {
    let (kind, rank) = rig(kind, rank)?;
    let rule = rule.get_mut(..3)?;
    Some(match winnathey::lent::rewrite(kind, rank, word, place, out) {
        Ok(Rewrite::Used { family, i, j, length }) => {
            rule.copy_from_slice(&[family, i, j]);
            length as i64
        }
        Ok(Rewrite::NoneFits) => raw::NONE_FITS,
        Err(refusal) => coded(Err(refusal)),
    })
}

pub fn rewrite_steps(kind: u32, rank: u32, word: &[u8]) -> Option<i64> {
    rig(kind, rank).map(|(kind, rank)| coded(winnathey::lent::rewrite_steps(kind, rank, word)))
}

#[expect(clippy::too_many_arguments, reason = "as the C interface has them")]
pub fn rewrite_to_end(
    kind: u32,
    rank: u32,
    word: &[u8],
    families: &mut [u8],
    places: &mut [u16],
    lengths: &mut [u16],
    out: &mut [u8],
    written: &mut [u64],
) -> Option<i64> {
    let (kind, rank) = rig(kind, rank)?;
    let written = written.get_mut(..1)?;
    let ended = winnathey::lent::rewrite_to_end(kind, rank, word, families, places, lengths, out);
    listed(written, ended.ok().map(|ended| [ended.length]));
    Some(coded(ended.map(|ended| ended.steps)))
}

pub fn fallback(kind: u32, rank: u32, present: &[u8], simpler: &[u8], places: &mut [u16]) -> Option<i64> {
    let (kind, rank) = rig(kind, rank)?;
    Some(match winnathey::lent::fallback(kind, rank, present, simpler, places) {
        Ok(None) => raw::NO_FALLBACK,
        Ok(Some(kept)) => kept as i64,
        Err(refusal) => coded(Err(refusal)),
    })
}

pub fn split(
    kind: u32,
    rank: u32,
    allowed: u64,
    word: &[u8],
    first: &mut [u8],
    second: &mut [u8],
    lengths: &mut [u64],
) -> Option<i64> {
    let (kind, rank) = rig(kind, rank)?;
    let lengths = lengths.get_mut(..2)?;
    let answer = winnathey::lent::split(kind, rank, allowed, word, first, second);
    listed(lengths, answer.ok().map(|Split { first, second }| [first, second]));
    Some(coded(answer.map(|split| split.first + split.second)))
}

pub fn between(kind: u32, rank: u32, allowed: u64, from: &[i8], to: &[i8], out: &mut [u8]) -> Option<i64> {
    rig(kind, rank).map(|(kind, rank)| coded(winnathey::lent::between(kind, rank, allowed, from, to, out)))
}

fn checked(edition: Edition, book: &[u8]) -> Option<i64> {
    Some(coded(winnathey::lent::book_check(edition, book)))
}

/// Where a part of a book begins, which must be the book's own bytes.
fn place(book: &[u8], part: &[u8]) -> u64 {
    part.as_ptr().addr().wrapping_sub(book.as_ptr().addr()) as u64
}

/// The safe function always has room for the fields.
fn one(edition: Edition, book: &[u8], number: usize, fields: &mut [u64]) -> Option<i64> {
    let fields = fields.get_mut(..4)?;
    let found = winnathey::lent::preset(edition, book, number).map(|Preset { kind, rank, word }| {
        fields.copy_from_slice(&[kind.0.into(), rank.into(), place(book, word), word.len() as u64]);
        fields.len()
    });
    Some(coded(found))
}

/// The safe function always reads all presets. Those that there is room for must be the raw call's; where none is left
/// at `first`, that is refusal 4.
fn run(edition: Edition, book: &[u8], first: usize, fields: &mut [u64]) -> Option<i64> {
    let (rows, _) = fields.as_chunks_mut::<5>();
    if rows.is_empty() {
        return None;
    }
    let all = match winnathey::lent::presets(edition, book) {
        Ok(all) if first < all.len() => all,
        Ok(_) => return Some(-4),
        Err(refusal) => return Some(coded(Err(refusal))),
    };
    let mut written = 0;
    for (row, found) in rows.iter_mut().zip(all.skip(first)) {
        *row = match found {
            Ok(Preset { kind, rank, word }) => [0, kind.0.into(), rank.into(), place(book, word), word.len() as u64],
            Err(refusal) => [refusal.number().into(), 0, 0, 0, 0],
        };
        written += 1;
    }
    Some(written)
}

fn longer(edition: Edition, book: &[u8], kind: u32, rank: u32, word: &[u8], out: &mut [u8]) -> Option<i64> {
    a_preset(kind, rank, word).map(|added| coded(winnathey::lent::append(edition, book, added, out)))
}

pub fn book_check(book: &[u8]) -> Option<i64> {
    checked(Edition::First, book)
}

pub fn preset(book: &[u8], number: usize, fields: &mut [u64]) -> Option<i64> {
    one(Edition::First, book, number, fields)
}

pub fn presets(book: &[u8], first: usize, fields: &mut [u64]) -> Option<i64> {
    run(Edition::First, book, first, fields)
}

pub fn append(book: &[u8], kind: u32, rank: u32, word: &[u8], out: &mut [u8]) -> Option<i64> {
    longer(Edition::First, book, kind, rank, word, out)
}

pub fn second_book_check(book: &[u8]) -> Option<i64> {
    checked(Edition::Second, book)
}

pub fn second_preset(book: &[u8], number: usize, fields: &mut [u64]) -> Option<i64> {
    one(Edition::Second, book, number, fields)
}

pub fn second_presets(book: &[u8], first: usize, fields: &mut [u64]) -> Option<i64> {
    run(Edition::Second, book, first, fields)
}

pub fn second_append(book: &[u8], kind: u32, rank: u32, word: &[u8], out: &mut [u8]) -> Option<i64> {
    longer(Edition::Second, book, kind, rank, word, out)
}

pub fn to_second(book: &[u8], out: &mut [u8]) -> Option<i64> {
    Some(coded(winnathey::lent::convert(Edition::First, book, out)))
}

pub fn to_first(book: &[u8], out: &mut [u8]) -> Option<i64> {
    Some(coded(winnathey::lent::convert(Edition::Second, book, out)))
}
