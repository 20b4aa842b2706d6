//! Blocks and normal forms.
use crate::window::Window;
use crate::{D, MAX_LANES, MAX_LETTERS, Refusal, front, lanes};
use std::ops::Range;

/// The block [i,j] of a kind and a rank n.
#[derive(Clone, Copy)]
pub(crate) struct Block {
    pub(crate) kind: u32,
    pub(crate) n: u8,
    pub(crate) i: u8,
    pub(crate) j: u8,
}

impl Block {
    /// The steps going up, then perhaps step n alone, then the steps to be taken downwards.
    fn parts(self) -> (Range<u8>, Option<u8>, Range<u8>) {
        let Block { kind, n, i, j } = self;
        let down = (2 * n - j).min(n)..n;
        if kind == D && j >= n { (i..n - 1, Some(n), down) } else { (i..j.min(n) + 1, None, down) }
    }

    pub(crate) fn len(self) -> usize {
        // In D a block that reaches step n leaves out step n - 1 on its way up.
        usize::from(self.j + 1 - self.i) - usize::from(self.kind == D && self.j >= self.n)
    }

    /// Writes the block's steps to the front of `out`, and hands back the rest.
    pub(crate) fn write(self, out: &mut [u8]) -> &mut [u8] {
        let (up, top, down) = self.parts();
        let (here, mut out) = out.split_at_mut(up.len());
        for (out, step) in here.iter_mut().zip(up) {
            *out = step;
        }
        if let Some(step) = top {
            out[0] = step;
            out = &mut out[1..];
        }
        let (here, out) = out.split_at_mut(down.len());
        for (out, step) in here.iter_mut().zip(down.rev()) {
            *out = step;
        }
        out
    }

    /// Whether a word begins with the block.
    pub(crate) fn begins(self, word: &[u8]) -> bool {
        let (up, top, down) = self.parts();
        let Some(word) = word.get(..self.len()) else { return false };
        word.iter().copied().eq(up.chain(top).chain(down.rev()))
    }
}

/// Writes the normal form of a checked window, and says how many letters it has.
pub(crate) fn write_normal_form(kind: u32, rank: u8, mut window: Window, out: &mut [u8]) -> Result<usize, Refusal> {
    let n = rank;
    let blocks = if kind == D { n - 1 } else { n };
    let mut ends = [0; MAX_LANES];
    let ends = &mut ends[..blocks as usize];
    let mut total = 0;
    let mut rest = window.entries_mut();
    for (i, end) in (1..=blocks).zip(ends.iter_mut()) {
        let j;
        (j, rest) = peel(kind, n, i, rest);
        *end = j;
        total += Block { kind, n, i, j }.len();
    }
    let mut out = front(out, total)?;
    for (i, &j) in (1..=blocks).zip(ends.iter()).rev() {
        out = Block { kind, n, i, j }.write(out);
    }
    Ok(total)
}

/// Takes block i off a window whose first i - 1 entries are gone: the block's j, and the window of what is left.
///
/// What stands before the block leaves entry i in front; the block carries it up, and down again with a minus sign.
fn peel(kind: u32, n: u8, i: u8, rest: &mut [i8]) -> (u8, &mut [i8]) {
    let at = rest.iter().position(|entry| entry.unsigned_abs() == i).expect("a checked window has each size");
    let position = i + at as u8;
    let mirrored = rest[at] < 0;
    rest.copy_within(at + 1.., at);
    let left = rest.len() - 1;
    let rest = &mut rest[..left];
    if !mirrored {
        return (position - 1, rest);
    }
    // In D step n mirrors a second entry, which the way down moves to the end.
    if kind == D {
        rest[left - 1] = -rest[left - 1];
    }
    (2 * n - position, rest)
}

/// Whether a word is the normal form of its own window.
pub(crate) fn is_normal_form(kind: u32, rank: u8, word: &[u8]) -> bool {
    let mut window = Window::straight(lanes(kind, rank));
    window.apply(kind, word);
    let mut form = [0; MAX_LETTERS];
    write_normal_form(kind, rank, window, &mut form).is_ok_and(|letters| form[..letters] == *word)
}
