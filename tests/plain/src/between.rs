//! From one window to another with allowed steps only: a search through all windows, where they are few, and for any
//! number of steps whether an answer is what the requirement asks for.
use crate::checks::{check_rank, check_set, check_window};
use crate::kept::Kept;
use crate::search::{FEW_STEPS, TOO_MANY, first_words, is_allowed};
use crate::window::{Window, inverse_into, length, product_into};
use crate::{A, B, MAX_LANES, coded, front, word};
use std::collections::HashMap;

type Words = HashMap<Vec<i8>, Vec<u8>>;

thread_local! {
    static LAST: Kept<(u32, u8, u64, Vec<i8>), Words> = Kept::at_most(1);
}

/// The word's length, with the word in the front of `out`, or a refusal, or [`TOO_MANY`]. Bit 0 of `allowed` stands for
/// step 1.
pub fn between(kind: u32, rank: u32, allowed: u64, from: &[i8], to: &[i8], out: &mut [u8]) -> i64 {
    coded((|| {
        let rank = check_rank(kind, rank)?;
        check_set(rank, allowed)?;
        check_window(kind, rank, from)?;
        check_window(kind, rank, to)?;
        if allowed.count_ones() > FEW_STEPS {
            return Err(-TOO_MANY);
        }
        let key = (kind, rank, allowed, from.to_vec());
        let words = LAST.with(|last| last.of(key, || first_words(kind, rank, allowed, from)));
        let word = words.get(to).ok_or(19)?;
        front(out, word.len())?.copy_from_slice(word);
        Ok(word.len())
    })())
}

/// Whether an answer to a call that passes its checks is what is asked for, with no word where that is refused 19.
///
/// A word is one if its steps are allowed and lead, taken one after the other, from the one window to the other; if it is
/// as short as the length of what leads there; and if it is its own normal form, and so the first of those. That there is
/// none is right if an entry of the first window cannot come to where the second has it.
pub fn is_way(kind: u32, rank: u32, allowed: u64, from: &[i8], to: &[i8], way: Option<&[u8]>) -> bool {
    let Some(way) = way else { return is_cut_off(kind, allowed, from, to) };
    let rank = rank as u8;
    if !way.iter().all(|&step| (1..=rank).contains(&step) && is_allowed(allowed, step)) {
        return false;
    }
    let mut shown = Window::from(from);
    shown.apply(kind, way);
    let mut back = Window::straight(from.len());
    inverse_into(from, back.entries_mut());
    let mut change = Window::straight(from.len());
    product_into(back.entries(), to, change.entries_mut());
    shown.entries() == to && length(kind, change.entries()) == way.len() && word::is_normal_form(kind, rank, way)
}

/// Whether an entry stands, in the two windows, at places that no allowed steps join. A place has a minus sign where the
/// entry is shown mirrored.
fn is_cut_off(kind: u32, allowed: u64, from: &[i8], to: &[i8]) -> bool {
    let m = from.len();
    let mut joined: [usize; 2 * MAX_LANES + 1] = std::array::from_fn(|at| at);
    let at = |place: i8| (place as isize + MAX_LANES as isize) as usize;
    let mut join = |one: i8, other: i8| {
        for (one, other) in [(at(one), at(other)), (at(-one), at(-other))] {
            let (new, old) = (joined[one], joined[other]);
            joined.iter_mut().filter(|run| **run == old).for_each(|run| *run = new);
        }
    };
    let last = m as i8;
    for step in (1..=64).filter(|&step| is_allowed(allowed, step)) {
        match (step as i8, kind) {
            (step, _) if step < last => join(step, step + 1),
            (_, A) => unreachable!("the step was checked"),
            (_, B) => join(last, -last),
            _ => join(last - 1, -last),
        }
    }
    let place = |window: &[i8], entry: i8| {
        let lane =
            window.iter().position(|other| other.unsigned_abs() == entry.unsigned_abs()).expect("it was checked");
        if window[lane] == entry { lane as i8 + 1 } else { -(lane as i8 + 1) }
    };
    (1..=last).any(|entry| joined[at(place(from, entry))] != joined[at(place(to, entry))])
}

#[cfg(test)]
mod tests {
    use super::*;
    use crate::{D, lanes};

    /// Of the words that the search finds, and of those with two letters more, the properties have just the right one.
    #[test]
    fn the_properties_are_those_of_the_word_found() {
        for (kind, rank) in [(A, 1), (A, 2), (A, 3), (A, 4), (B, 2), (B, 3), (D, 4)] {
            let all = first_words(kind, rank, u64::MAX >> (64 - rank), Window::straight(lanes(kind, rank)).entries());
            for allowed in 0..1 << rank {
                for from in all.keys().filter(|from| rank < 4 || from[0] == 1) {
                    let words = first_words(kind, rank, allowed, from);
                    let is = |to: &[i8], way: Option<&[u8]>| is_way(kind, rank.into(), allowed, from, to, way);
                    for to in all.keys() {
                        let due = words.get(to);
                        assert_eq!(is(to, None), due.is_none(), "{kind} {rank} {allowed:#b} {from:?} {to:?}");
                        for way in all.values() {
                            assert_eq!(
                                is(to, Some(way)),
                                due == Some(way),
                                "{kind} {rank} {allowed:#b} {from:?} {to:?}"
                            );
                        }
                        if let Some(due) = due {
                            assert!(!is(to, Some(&[&due[..], &[1, 1]].concat())));
                        }
                    }
                }
            }
        }
    }
}
