//! A word split by allowed steps: what can be taken off its front, and what is left.
use crate::checks::{check_rank, check_set, check_word};
use crate::window::{Window, inverse_into, length};
use crate::{B, coded, front, lanes, listed, word};

/// Whether a step at the end makes a window shorter, in the order 1, 2, .., m, -m, .., -1 of the bytes without sign.
fn shortens(kind: u32, w: &[i8], step: u8) -> bool {
    let (i, n) = (usize::from(step), w.len());
    if i < n {
        return w[i - 1] as u8 > w[i] as u8;
    }
    if kind == B { w[n - 1] < 0 } else { w[n - 2] as u8 > -w[n - 1] as u8 }
}

/// Writes the first word and the second to their outputs and their lengths to `lengths`. Answers the sum of the lengths.
pub fn split(
    kind: u32,
    rank: u32,
    allowed: u64,
    word: &[u8],
    first: &mut [u8],
    second: &mut [u8],
    lengths: &mut [u64],
) -> i64 {
    coded((|| {
        let rank = check_rank(kind, rank)?;
        check_set(rank, allowed)?;
        check_word(rank, word)?;
        let m = lanes(kind, rank);
        let mut window = Window::straight(m);
        window.apply(kind, word);
        // A step off the front of the window is one at the end of its inverse.
        let mut rest = Window::straight(m);
        inverse_into(window.entries(), rest.entries_mut());
        let mut taken = Window::straight(m);
        let mut more = true;
        while more {
            more = false;
            for step in (1..=rank).filter(|step| allowed >> (step - 1) & 1 == 1) {
                // A step that was taken may make room for those before it.
                for step in (1..=step).rev().take_while(|step| allowed >> (step - 1) & 1 == 1) {
                    if !shortens(kind, rest.entries(), step) {
                        break;
                    }
                    rest.apply(kind, &[step]);
                    taken.apply(kind, &[step]);
                    more = true;
                }
            }
        }
        let mut left = Window::straight(m);
        inverse_into(rest.entries(), left.entries_mut());
        let (a, b) = (length(kind, taken.entries()), length(kind, left.entries()));
        let (first, second) = (front(first, a)?, front(second, b)?);
        let sum = listed([a, b], lengths)?;
        word::write_normal_form(kind, rank, taken, first)?;
        word::write_normal_form(kind, rank, left, second)?;
        Ok(sum)
    })())
}

#[cfg(test)]
mod tests {
    use super::*;
    use crate::{A, D};

    fn both(kind: u32, rank: u32, allowed: u64, word: &[u8]) -> (Vec<u8>, Vec<u8>) {
        let (mut first, mut second, mut lengths) = (vec![0; 4096], vec![0; 4096], [0; 2]);
        let sum = split(kind, rank, allowed, word, &mut first, &mut second, &mut lengths);
        assert_eq!(sum, lengths.iter().sum::<u64>() as i64);
        first.truncate(lengths[0] as usize);
        second.truncate(lengths[1] as usize);
        (first, second)
    }

    #[test]
    fn small_splits() {
        assert_eq!(both(A, 2, 1, &[1, 2, 1]), (vec![1], vec![2, 1]));
        assert_eq!(both(A, 2, 2, &[1, 2, 1]), (vec![2], vec![1, 2]));
        assert_eq!(both(A, 2, 0, &[1, 2, 1]), (vec![], vec![2, 1, 2]));
        assert_eq!(both(A, 2, 3, &[1, 2, 1]), (vec![2, 1, 2], vec![]));
        assert_eq!(both(B, 2, 2, &[1, 2, 1, 2]), (vec![2], vec![1, 2, 1]));
        assert_eq!(both(D, 4, 8, &[4, 2]), (vec![4], vec![2]));
    }
}
