//! A word split by allowed steps: all windows over the allowed steps are tried, where they are few, and for any number of
//! steps there is a test whether two words are what the requirement asks for.
use crate::checks::{check_rank, check_set, check_word};
use crate::kept::Kept;
use crate::search::{FEW_STEPS, TOO_MANY, allowed_steps, first_words, is_allowed};
use crate::window::{Window, inverse_into, length, product_into};
use crate::{coded, front, lanes, listed, word};

/// A word over allowed steps, the inverse of its window, and its length.
type Front = (Vec<u8>, Window, usize);

thread_local! {
    static LAST: Kept<(u32, u8, u64), Vec<Front>> = Kept::at_most(100);
}

fn shown(kind: u32, rank: u8, letters: &[u8]) -> Window {
    let mut window = Window::straight(lanes(kind, rank));
    window.apply(kind, letters);
    window
}

/// Whether no shortest word of a window begins with an allowed step: in front of the window each makes it longer.
fn none_begins(kind: u32, rank: u8, allowed: u64, w: &[i8]) -> bool {
    let letters = length(kind, w);
    allowed_steps(rank, allowed).all(|step| {
        let mut behind = Window::straight(w.len());
        product_into(shown(kind, rank, &[step]).entries(), w, behind.entries_mut());
        length(kind, behind.entries()) > letters
    })
}

/// All windows over the allowed steps.
fn fronts(kind: u32, rank: u8, allowed: u64) -> Vec<Front> {
    let words = first_words(kind, rank, allowed, shown(kind, rank, &[]).entries());
    let front = |(window, word): (Vec<i8>, Vec<u8>)| {
        let mut back = Window::straight(window.len());
        inverse_into(&window, back.entries_mut());
        (word, back, length(kind, &window))
    };
    words.into_iter().map(front).collect()
}

/// Writes the first word and the second to their outputs and their lengths to `lengths`. Answers the sum of the lengths,
/// or a refusal, or [`TOO_MANY`].
pub fn split(
    kind: u32,
    rank: u32,
    allowed: u64,
    word: &[u8],
    first: &mut [u8],
    second: &mut [u8],
    lengths: &mut [u64],
) -> i64 {
    coded((|| {
        let rank = check_rank(kind, rank)?;
        check_set(rank, allowed)?;
        check_word(rank, word)?;
        if allowed.count_ones() > FEW_STEPS {
            return Err(-TOO_MANY);
        }
        let window = shown(kind, rank, word);
        let w = window.entries();
        let letters = length(kind, w);
        let fronts = LAST.with(|last| last.of((kind, rank, allowed), || fronts(kind, rank, allowed)));
        // Each window over the allowed steps in front, with what is left behind it.
        let pairs = fronts.iter().filter_map(|(word, back, taken)| {
            let mut left = Window::straight(w.len());
            product_into(back.entries(), w, left.entries_mut());
            let whole = taken + length(kind, left.entries()) == letters;
            (whole && none_begins(kind, rank, allowed, left.entries())).then_some((word, left))
        });
        let pairs: Vec<_> = pairs.collect();
        let [(taken, left)] = &pairs[..] else { panic!("{} pairs have the properties", pairs.len()) };
        let (a, b) = (taken.len(), length(kind, left.entries()));
        let (first, second) = (front(first, a)?, front(second, b)?);
        let sum = listed([a, b], lengths)?;
        first.copy_from_slice(taken);
        word::write_normal_form(kind, rank, Window::from(left.entries()), second)?;
        Ok(sum)
    })())
}

/// Whether two words are the split of a word that passes its checks: the first over allowed steps, both normal forms, the
/// product of their windows the word's window, their lengths together its length, and the second's window without a
/// shortest word that begins with an allowed step.
pub fn is_split(kind: u32, rank: u32, allowed: u64, word: &[u8], first: &[u8], second: &[u8]) -> bool {
    let rank = rank as u8;
    if !first.iter().chain(second).all(|step| (1..=rank).contains(step)) {
        return false;
    }
    let [w, u, v] = [word, first, second].map(|word| shown(kind, rank, word));
    let mut product = Window::straight(w.entries().len());
    product_into(u.entries(), v.entries(), product.entries_mut());
    first.iter().all(|&step| is_allowed(allowed, step))
        && product.entries() == w.entries()
        && first.len() + second.len() == length(kind, w.entries())
        && [first, second].iter().all(|half| word::is_normal_form(kind, rank, half))
        && none_begins(kind, rank, allowed, v.entries())
}

#[cfg(test)]
mod tests {
    use super::*;
    use crate::{A, B, D};

    fn both(kind: u32, rank: u32, allowed: u64, word: &[u8]) -> (Vec<u8>, Vec<u8>) {
        let (mut first, mut second, mut lengths) = (vec![0; 4096], vec![0; 4096], [0; 2]);
        let sum = split(kind, rank, allowed, word, &mut first, &mut second, &mut lengths);
        assert_eq!(sum, lengths.iter().sum::<u64>() as i64);
        first.truncate(lengths[0] as usize);
        second.truncate(lengths[1] as usize);
        (first, second)
    }

    #[test]
    fn small_splits() {
        assert_eq!(both(A, 2, 1, &[1, 2, 1]), (vec![1], vec![2, 1]));
        assert_eq!(both(A, 2, 2, &[1, 2, 1]), (vec![2], vec![1, 2]));
        assert_eq!(both(A, 2, 0, &[1, 2, 1]), (vec![], vec![2, 1, 2]));
        assert_eq!(both(A, 2, 3, &[1, 2, 1]), (vec![2, 1, 2], vec![]));
        assert_eq!(both(B, 2, 2, &[1, 2, 1, 2]), (vec![2], vec![1, 2, 1]));
        assert_eq!(both(D, 4, 8, &[4, 2]), (vec![4], vec![2]));
    }

    /// Of all pairs of normal forms the properties have just the one that is found.
    #[test]
    fn the_properties_are_those_of_the_pair_found() {
        for (kind, rank) in [(A, 1), (A, 2), (A, 3), (B, 2), (B, 3)] {
            let all = u64::MAX >> (64 - rank);
            let forms: Vec<_> = first_words(kind, rank, all, shown(kind, rank, &[]).entries()).into_values().collect();
            for allowed in 0..=all {
                for word in &forms {
                    let due = both(kind, rank.into(), allowed, word);
                    for first in &forms {
                        for second in &forms {
                            let is = is_split(kind, rank.into(), allowed, word, first, second);
                            assert_eq!(
                                is,
                                due == (first.clone(), second.clone()),
                                "{kind} {rank} {allowed:#b} {word:?}"
                            );
                        }
                    }
                }
            }
        }
    }
}
