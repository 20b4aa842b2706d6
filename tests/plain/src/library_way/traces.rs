//! The rewriting to its end: always at the lowest place where a rule fits, until none fits.
//!
//! Letters are read one by one behind a normal form. Only a left side that ends with the letter just read, or just moved,
//! can fit, and it is at the lowest place; so nothing behind that letter is looked at again.
use crate::checks::check_preset;
use crate::{A, D, MAX_LETTERS, Refusal, coded, front, listed};

/// Words of so few letters have a work array of their own size, which takes less time to clear.
const FEW_LETTERS: usize = 128;

/// A rule whose left side ends with a letter: its family, the place where it begins, the letter that its right side puts
/// first.
struct Ending {
    family: u8,
    place: usize,
    first: u8,
}

/// Whether family 2 has the pair l x.
fn commutes(kind: u32, n: u8, l: u8, x: u8) -> bool {
    if kind == D && x == n { l + 2 < n || l + 1 == n } else { l + 2 <= x }
}

/// The rule that ends at place q of `word`, where no rule fits in front of it and family 2 does not have the last pair.
fn ending(kind: u32, n: u8, word: &[u8], q: usize) -> Option<Ending> {
    let (l, x) = (word[q - 1], word[q]);
    if l == x {
        return Some(Ending { family: 1, place: q - 1, first: 0 });
    }
    // The first letter of the left side is the lower of the two, and all letters between are higher. What stands there is
    // then a block: of the words of blocks only those have no lower letter behind their first.
    let lower = l.min(x);
    let end = if l < x { q - 1 } else { q };
    let most = 2 * usize::from(n);
    let back = word[..end].iter().rev().take(most).position(|&step| step <= lower)?;
    let place = end - 1 - back;
    if word[place] != lower {
        return None;
    }
    let (family, first) = if l < x {
        // The block came back to its first letter.
        match (kind == D && lower + 2 == n, x == n) {
            (false, _) => (4, lower + 1),
            (true, true) => (6, n - 1),
            (true, false) => (7, n),
        }
    } else if kind == D && x + 2 == n && l == n {
        (5, n)
    } else {
        // The letter goes on where the block is on its way down and comes to it next.
        let turned = kind != A && (q - place > 2 || (kind != D && l == n));
        if turned && l == x + 1 {
            return None;
        }
        (3, x + 1)
    };
    Some(Ending { family, place, first })
}

/// Rewrites a checked word to its end, in `work`, and tells each step: its family, its place and the length left. Hands
/// back the length of the final word, which is at the front of `work`.
fn rewrite<const N: usize>(
    kind: u32,
    n: u8,
    word: &[u8],
    work: &mut [u8; N],
    mut step: impl FnMut(u8, usize, usize),
) -> usize {
    let mut size = 0;
    for (read, &letter) in word.iter().enumerate() {
        let left = word.len() - read - 1;
        let (mut q, mut x) = (size, letter);
        size += 1;
        loop {
            while q > 0 && commutes(kind, n, work[q - 1], x) {
                work[q] = work[q - 1];
                q -= 1;
                step(2, q, size + left);
            }
            work[q] = x;
            let Some(used) = (q > 0).then(|| ending(kind, n, work, q)).flatten() else { break };
            if used.family == 1 {
                work.copy_within(q + 1..size, q - 1);
                size -= 2;
                step(1, used.place, size + left);
                break;
            }
            work.copy_within(used.place..q, used.place + 1);
            step(used.family, used.place, size + left);
            (q, x) = (used.place, used.first);
        }
    }
    size
}

/// The number of steps and the length of the final word.
fn count(kind: u32, n: u8, word: &[u8]) -> (usize, usize) {
    let mut steps = 0;
    let step = |_, _, _| steps += 1;
    let size = if word.len() <= FEW_LETTERS {
        rewrite(kind, n, word, &mut [0; FEW_LETTERS], step)
    } else {
        rewrite(kind, n, word, &mut [0; MAX_LETTERS], step)
    };
    (steps, size)
}

/// How many steps [`rewrite_to_end`] takes.
pub fn rewrite_steps(kind: u32, rank: u32, word: &[u8]) -> i64 {
    coded(check_preset(kind, rank, word).map(|rank| count(kind, rank, word).0))
}

/// The number of steps, with the family, the place and the length left of each in the three lists, the final word, and its
/// length in `written`.
#[expect(clippy::too_many_arguments, reason = "as the C interface has them")]
pub fn rewrite_to_end(
    kind: u32,
    rank: u32,
    word: &[u8],
    families: &mut [u8],
    places: &mut [u16],
    lengths: &mut [u16],
    out: &mut [u8],
    written: &mut [u64],
) -> i64 {
    coded((|| -> Result<usize, Refusal> {
        let rank = check_preset(kind, rank, word)?;
        let (steps, size) = count(kind, rank, word);
        let families = families.get_mut(..steps).ok_or(15)?;
        let places = places.get_mut(..steps).ok_or(15)?;
        let lengths = lengths.get_mut(..steps).ok_or(15)?;
        let out = front(out, size)?;
        listed([size], written)?;
        let mut at = 0;
        let step = |family, place, left| {
            families[at] = family;
            places[at] = place as u16;
            lengths[at] = left as u16;
            at += 1;
        };
        if word.len() <= FEW_LETTERS {
            let mut work = [0; FEW_LETTERS];
            rewrite(kind, rank, word, &mut work, step);
            out.copy_from_slice(&work[..size]);
        } else {
            let mut work = [0; MAX_LETTERS];
            rewrite(kind, rank, word, &mut work, step);
            out.copy_from_slice(&work[..size]);
        }
        Ok(steps)
    })())
}
