//! How many windows of a rig have each length.
use crate::{A, B};

/// The greatest length of a table: 256, in kind B at rank 16.
const MOST: usize = 256;

/// The terms of each factor 1 + q + .. + q^(d - 1) of the product whose coefficients are the counts: the degrees d of
/// the group.
fn degrees(kind: u32, n: usize) -> impl Iterator<Item = usize> {
    let (first, step, last) = match kind {
        A => (2, 1, n + 1),
        B => (2, 2, 2 * n),
        _ => (2, 2, 2 * n - 2),
    };
    (first..=last).step_by(step).chain((kind != A && kind != B).then_some(n))
}

/// Fills the counts from length 0 to the greatest.
pub(crate) fn count(kind: u32, n: usize, counts: &mut [u64]) {
    counts.fill(0);
    counts[0] = 1;
    let mut end = 1;
    let mut old = [0; MOST + 1];
    for degree in degrees(kind, n) {
        end += degree - 1;
        // What was there: 0 past the old end.
        let (old, new) = (&mut old[..end], &mut counts[..end]);
        old.copy_from_slice(new);
        let mut sum = 0;
        for (new, old) in new.iter_mut().zip(&old[..degree.min(end)]) {
            sum += old;
            *new = sum;
        }
        for ((new, last), gone) in new.iter_mut().zip(&*old).skip(degree).zip(&*old) {
            sum = sum + last - gone;
            *new = sum;
        }
    }
}

/// The longest window: every pair of lanes crosses in every way that the kind has.
pub(crate) fn longest(kind: u32, n: usize, window: &mut [i8]) {
    let m = window.len();
    for (at, entry) in window.iter_mut().enumerate() {
        *entry = if kind == A { (m - at) as i8 } else { -(at as i8 + 1) };
    }
    // D has an even number of mirrored lanes.
    if kind != A && kind != B && n % 2 == 1 {
        window[n - 1] = n as i8;
    }
}
