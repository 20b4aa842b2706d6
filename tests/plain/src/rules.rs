//! The rules as a list, and one rewrite at a named place.
use crate::checks::check_preset;
use crate::word::Block;
use crate::{A, B, D, Refusal, front};

/// The answer of [`rewrite`] where no left side begins at the place.
pub const NONE_FITS: i64 = -100;

/// A rule by its name: the sides follow from the kind and the rank.
#[derive(Clone, Copy, Debug, PartialEq, Eq)]
pub struct Rule {
    pub family: u8,
    pub i: u8,
    pub j: u8,
}

/// All rules of a kind and a rank in its range.
pub fn rules(kind: u32, n: u8) -> impl Iterator<Item = Rule> {
    (1..=n).flat_map(move |i| rules_from(kind, n, i))
}

/// The rules whose left side begins with step i.
fn rules_from(kind: u32, n: u8, i: u8) -> impl Iterator<Item = Rule> {
    let rule = move |family, j| Rule { family, i, j };
    let family_2 = (i + 2..=n).filter(move |&j| !(kind == D && i == n - 2 && j == n));
    let last_pair = (kind == D && i == n - 1).then_some(n);
    let last_3 = match kind {
        A => n,
        B => (2 * n - i).saturating_sub(2),
        _ if i + 3 <= n => 2 * n - i - 2,
        _ if i + 2 == n => n - 1,
        _ => 0,
    };
    let has_4 = (kind == B && i < n) || (kind == D && i + 3 <= n);
    let last_families = if kind == D && i + 2 == n { 5..8 } else { 0..0 };
    std::iter::once(rule(1, 0))
        .chain(family_2.chain(last_pair).map(move |j| rule(2, j)))
        .chain((i + 1..=last_3).map(move |j| rule(3, j)))
        .chain(has_4.then(|| rule(4, 0)))
        .chain(last_families.map(move |family| rule(family, 0)))
}

/// A side of a rule: a letter, a block, a letter, where each may be missing.
struct Side {
    before: Option<u8>,
    block: Option<Block>,
    after: Option<u8>,
}

impl Rule {
    /// The left and the right side.
    fn sides(self, kind: u32, n: u8) -> (Side, Side) {
        let Rule { family, i, j } = self;
        let letters = |before, after| Side { before: Some(before), block: None, after: Some(after) };
        // A block that a letter leaves at its end and another enters at its start.
        let through = |j, leaving, entering| {
            let block = Some(Block { kind, n, i, j });
            (Side { before: None, block, after: Some(leaving) }, Side { before: Some(entering), block, after: None })
        };
        match family {
            1 => (letters(i, i), Side { before: None, block: None, after: None }),
            2 => (letters(i, j), letters(j, i)),
            3 => through(j, i, i + 1),
            4 => through(2 * n - i, i + 1, i + 1),
            5 => through(n, n - 2, n),
            6 => through(n + 2, n, n - 1),
            _ => through(n + 2, n - 1, n),
        }
    }
}

impl Rule {
    /// The two sides as words.
    pub(crate) fn words(self, kind: u32, n: u8) -> (Vec<u8>, Vec<u8>) {
        let written = |side: Side| {
            let mut word = vec![0; side.len()];
            side.write(&mut word);
            word
        };
        let (left, right) = self.sides(kind, n);
        (written(left), written(right))
    }
}

impl Side {
    fn len(&self) -> usize {
        usize::from(self.before.is_some()) + self.block.map_or(0, Block::len) + usize::from(self.after.is_some())
    }

    /// Whether a word begins with the side.
    fn begins(&self, word: &[u8]) -> bool {
        let Some(word) = word.get(..self.len()) else { return false };
        // The last letter rules out nearly all blocks, so it is looked at first.
        let word = match (self.after, word) {
            (Some(after), [word @ .., last]) if *last == after => word,
            (Some(_), _) => return false,
            (None, word) => word,
        };
        let word = match (self.before, word) {
            (Some(before), [first, word @ ..]) if *first == before => word,
            (Some(_), _) => return false,
            (None, word) => word,
        };
        self.block.is_none_or(|block| block.begins(word))
    }

    /// Writes the side to the front of `out`, and hands back the rest.
    fn write<'a>(&self, mut out: &'a mut [u8]) -> &'a mut [u8] {
        if let Some(step) = self.before {
            out[0] = step;
            out = &mut out[1..];
        }
        if let Some(block) = self.block {
            out = block.write(out);
        }
        if let Some(step) = self.after {
            out[0] = step;
            out = &mut out[1..];
        }
        out
    }
}

/// One rewrite: the new length, with family, i and j in `rule`, or [`NONE_FITS`], or a refusal.
pub fn rewrite(kind: u32, rank: u32, word: &[u8], place: usize, out: &mut [u8], rule: &mut [u8]) -> i64 {
    match rewritten(kind, rank, word, place, out, rule) {
        Ok(Some(length)) => length as i64,
        Ok(None) => NONE_FITS,
        Err(k) => -k,
    }
}

fn rewritten(
    kind: u32,
    rank: u32,
    word: &[u8],
    place: usize,
    out: &mut [u8],
    rule: &mut [u8],
) -> Result<Option<usize>, Refusal> {
    let rank = check_preset(kind, rank, word)?;
    if place >= word.len() {
        return Err(12);
    }
    let (before, here) = word.split_at(place);
    let Some(used) = rules_from(kind, rank, here[0]).find(|rule| rule.sides(kind, rank).0.begins(here)) else {
        return Ok(None);
    };
    let (left, right) = used.sides(kind, rank);
    let after = &here[left.len()..];
    let length = before.len() + right.len() + after.len();
    let out = front(out, length)?;
    let rule = front(rule, 3)?;
    rule.copy_from_slice(&[used.family, used.i, used.j]);
    out[..before.len()].copy_from_slice(before);
    right.write(&mut out[before.len()..]).copy_from_slice(after);
    Ok(Some(length))
}
