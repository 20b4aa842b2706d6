//! The rewriting to its end: the list of rules is searched at each place from the lowest on, the first that fits is used,
//! and so again until none fits at any.
use crate::checks::check_preset;
use crate::kept::Kept;
use crate::rules::rules;
use crate::{Refusal, coded, front, listed};

/// A rule's family and its two sides.
struct Sides {
    family: u8,
    left: Vec<u8>,
    right: Vec<u8>,
}

/// The list of rules in the order of a dictionary: each letter leads on to the left sides that have it next, and the last
/// letter of a left side to its rule. Entry 0 is the beginning.
struct Dictionary {
    /// Where each letter leads from each entry; 0 where no left side goes on with it.
    next: Vec<[u16; 65]>,
    /// From where each entry is reached.
    before: Vec<u16>,
    /// The rule whose left side ends there.
    rules: Vec<Option<Sides>>,
    /// The most letters of a left side.
    longest: usize,
}

/// Why no rule fits at a place: the letters before `end` but for the last lead to an entry, and the last leads nowhere.
/// Past the word's end there is no letter.
#[derive(Clone, Copy)]
struct NoneFits {
    entry: u16,
    end: usize,
}

impl Dictionary {
    fn new(kind: u32, n: u8) -> Dictionary {
        let mut all = Dictionary { next: vec![[0; 65]], before: vec![0], rules: vec![None], longest: 0 };
        for rule in rules(kind, n) {
            let (left, right) = rule.words(kind, n);
            all.longest = all.longest.max(left.len());
            let mut at = 0;
            for &letter in &left {
                assert!(all.rules[at].is_none(), "a left side begins with another");
                if all.next[at][usize::from(letter)] == 0 {
                    all.next[at][usize::from(letter)] = all.next.len() as u16;
                    all.next.push([0; 65]);
                    all.before.push(at as u16);
                    all.rules.push(None);
                }
                at = usize::from(all.next[at][usize::from(letter)]);
            }
            let old = all.rules[at].replace(Sides { family: rule.family, left, right });
            assert!(old.is_none() && all.next[at] == [0; 65], "two rules fit at one place");
        }
        all
    }

    /// The rule that the letters lead to, read from `at` on where those before it lead to an entry.
    fn look_up(&self, mut entry: u16, word: &[u8], at: usize) -> Result<&Sides, NoneFits> {
        for (at, &letter) in word.iter().enumerate().skip(at) {
            let next = self.next[usize::from(entry)][usize::from(letter)];
            if next == 0 {
                return Err(NoneFits { entry, end: at + 1 });
            }
            if let Some(rule) = &self.rules[usize::from(next)] {
                return Ok(rule);
            }
            entry = next;
        }
        Err(NoneFits { entry, end: word.len() + 1 })
    }

    /// The entry to which only the letters before `at` lead.
    fn back(&self, known: NoneFits, at: usize) -> u16 {
        (at + 1..known.end).fold(known.entry, |entry, _| self.before[usize::from(entry)])
    }
}

/// The steps, each with its family, its place and the length left, and the final word.
struct Trace {
    steps: Vec<(u8, u16, u16)>,
    last: Vec<u8>,
}

/// After each step the search begins anew, but for what is known: at a place from which no changed letter was read none
/// fits still, and at the others the letters before the change need not be read again.
fn trace(rules: &Dictionary, word: &[u8]) -> Trace {
    let mut word = word.to_vec();
    let mut steps = Vec::new();
    let mut known: Vec<NoneFits> = Vec::new();
    let mut changed = 0;
    let mut place = 0;
    while place < word.len() {
        let found = match known.get(place) {
            Some(&NoneFits { end, .. }) if end <= changed => {
                place += 1;
                continue;
            }
            Some(&none) => rules.look_up(rules.back(none, changed), &word, changed),
            None => rules.look_up(0, &word, place),
        };
        match found {
            Err(none) => {
                if place < known.len() {
                    known[place] = none
                } else {
                    known.push(none)
                }
                place += 1;
            }
            Ok(Sides { family, left, right }) => {
                if left.len() == right.len() {
                    word[place..place + left.len()].copy_from_slice(right);
                } else {
                    word.splice(place..place + left.len(), right.iter().copied());
                }
                steps.push((*family, place as u16, word.len() as u16));
                known.truncate(place);
                changed = place;
                // From lower places no left side reaches what has changed.
                place = place.saturating_sub(rules.longest);
            }
        }
    }
    Trace { steps, last: word }
}

thread_local! {
    static RULES: Kept<(u32, u8), Dictionary> = Kept::at_most(1);
    static LAST: Kept<(u32, u8, Vec<u8>), Trace> = Kept::at_most(1);
}

/// The trace of a word that passes its checks.
fn traced(kind: u32, rank: u32, word: &[u8]) -> Result<std::rc::Rc<Trace>, Refusal> {
    let rank = check_preset(kind, rank, word)?;
    let rules = RULES.with(|last| last.of((kind, rank), || Dictionary::new(kind, rank)));
    Ok(LAST.with(|last| last.of((kind, rank, word.to_vec()), || trace(&rules, word))))
}

/// How many steps [`rewrite_to_end`] takes.
pub fn rewrite_steps(kind: u32, rank: u32, word: &[u8]) -> i64 {
    coded(traced(kind, rank, word).map(|trace| trace.steps.len()))
}

/// The number of steps, with the family, the place and the length left of each in the three lists, the final word, and its
/// length in `written`.
#[expect(clippy::too_many_arguments, reason = "as the C interface has them")]
pub fn rewrite_to_end(
    kind: u32,
    rank: u32,
    word: &[u8],
    families: &mut [u8],
    places: &mut [u16],
    lengths: &mut [u16],
    out: &mut [u8],
    written: &mut [u64],
) -> i64 {
    coded((|| -> Result<usize, Refusal> {
        let trace = traced(kind, rank, word)?;
        let steps = trace.steps.len();
        let families = families.get_mut(..steps).ok_or(15)?;
        let places = places.get_mut(..steps).ok_or(15)?;
        let lengths = lengths.get_mut(..steps).ok_or(15)?;
        let out = front(out, trace.last.len())?;
        listed([trace.last.len()], written)?;
        out.copy_from_slice(&trace.last);
        for (at, &(family, place, length)) in trace.steps.iter().enumerate() {
            (families[at], places[at], lengths[at]) = (family, place, length);
        }
        Ok(steps)
    })())
}

#[cfg(test)]
mod tests {
    use super::*;
    use crate::{A, B, D, NONE_FITS, rewrite};

    /// The rewriting by single rewrites, each tried at every place from the lowest on.
    fn by_single_rewrites(kind: u32, rank: u32, word: &[u8]) -> (Vec<(u8, u16, u16)>, Vec<u8>) {
        let mut word = word.to_vec();
        let mut steps = Vec::new();
        loop {
            let (mut out, mut rule) = (vec![0; word.len()], [0; 3]);
            let mut fits = |place: &usize| rewrite(kind, rank, &word, *place, &mut out, &mut rule) != NONE_FITS;
            let Some(place) = (0..word.len()).find(&mut fits) else { return (steps, word) };
            let length = rewrite(kind, rank, &word, place, &mut out, &mut rule) as usize;
            steps.push((rule[0], place as u16, length as u16));
            word = out[..length].to_vec();
        }
    }

    #[test]
    fn the_dictionary_finds_what_the_list_has() {
        let mut random = 1u64;
        let mut below = |n: u32| {
            random = random.wrapping_mul(6_364_136_223_846_793_005).wrapping_add(1_442_695_040_888_963_407);
            (random >> 33) as u32 % n
        };
        for (kind, ranks) in [(A, 1..=63), (B, 2..=64), (D, 4..=64)] {
            for rank in ranks {
                for letters in [2, 10, 20, 40] {
                    let span = below(rank) + 1;
                    let word: Vec<u8> = (0..letters).map(|_| (rank - below(span)) as u8).collect();
                    let trace = traced(kind, rank, &word).unwrap();
                    assert_eq!((trace.steps.clone(), trace.last.clone()), by_single_rewrites(kind, rank, &word));
                }
            }
        }
    }
}
