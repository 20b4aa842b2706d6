//! Whether a simpler window can be reached by removing letters from the present word's normal form, and which to keep.
//!
//! The places come by one of two ways. In a normal form of few letters all part-lists are tried. In a longer one the
//! letters are gone through from the first to the last: a letter is kept where it stands at the front of a shortest word
//! of what is still wanted, which is then shorter without it by the three sums.
use crate::checks::{check_preset, check_word};
use crate::window::{Window, inverse_into, length};
use crate::{MAX_LETTERS, Refusal, front, lanes, word};

/// The answer of [`fallback`] where no part-list has the simpler window.
pub const NO_FALLBACK: i64 = -101;

/// The most letters of a normal form whose part-lists are all tried.
pub const FEW_LETTERS: usize = 12;

/// How many places are kept, with the places in `places`, or [`NO_FALLBACK`], or a refusal.
pub fn fallback(kind: u32, rank: u32, present: &[u8], simpler: &[u8], places: &mut [u16]) -> i64 {
    match found(kind, rank, present, simpler, places) {
        Ok(Some(kept)) => kept as i64,
        Ok(None) => NO_FALLBACK,
        Err(k) => -k,
    }
}

fn shown(kind: u32, rank: u8, letters: &[u8]) -> Window {
    let mut window = Window::straight(lanes(kind, rank));
    window.apply(kind, letters);
    window
}

fn found(kind: u32, rank: u32, present: &[u8], simpler: &[u8], places: &mut [u16]) -> Result<Option<usize>, Refusal> {
    let rank = check_preset(kind, rank, present)?;
    check_word(rank, simpler)?;
    let mut form = [0; MAX_LETTERS];
    let letters = word::write_normal_form(kind, rank, shown(kind, rank, present), &mut form)?;
    let form = &form[..letters];
    let target = shown(kind, rank, simpler);
    let kept =
        if letters <= FEW_LETTERS { by_part_lists(kind, rank, form, &target) } else { by_letters(kind, form, target) };
    let Some(kept) = kept else { return Ok(None) };
    front(places, kept.len())?.copy_from_slice(&kept);
    Ok(Some(kept.len()))
}

/// All part-lists: the verdict is yes if any has the window, and the places are those of one with no letter too many.
fn by_part_lists(kind: u32, rank: u8, form: &[u8], target: &Window) -> Option<Vec<u16>> {
    let least = length(kind, target.entries()) as u32;
    let mut some = false;
    for set in 0u32..1 << form.len() {
        let places = (0..form.len() as u16).filter(|place| set >> place & 1 == 1);
        let part: Vec<u8> = places.clone().map(|place| form[usize::from(place)]).collect();
        if shown(kind, rank, &part).entries() == target.entries() {
            some = true;
            if set.count_ones() == least {
                return Some(places.collect());
            }
        }
    }
    assert!(!some, "a part-list has the window, and none has it with as many letters as the window's length");
    None
}

/// The letters of the front first. A step at the front of a word is one at the end of its inverse.
fn by_letters(kind: u32, form: &[u8], target: Window) -> Option<Vec<u16>> {
    let mut wanted = Window::straight(target.entries().len());
    inverse_into(target.entries(), wanted.entries_mut());
    let mut left = length(kind, wanted.entries());
    let mut kept = Vec::with_capacity(left);
    for (place, &step) in (0..).zip(form) {
        let mut without = Window::from(wanted.entries());
        without.apply(kind, &[step]);
        let now = length(kind, without.entries());
        if now < left {
            (wanted, left) = (without, now);
            kept.push(place);
        }
    }
    (left == 0).then_some(kept)
}

#[cfg(test)]
mod tests {
    use super::*;
    use crate::{A, B, D};

    /// Words of random steps, from a fixed start.
    fn words(rank: u8, count: usize) -> Vec<Vec<u8>> {
        let mut state = 7u64;
        let mut below = |n: u64| {
            state = state.wrapping_mul(6364136223846793005).wrapping_add(1442695040888963407);
            (state >> 33) % n
        };
        let word = |_| (0..below(20)).map(|_| below(rank.into()) as u8 + 1).collect();
        (0..count).map(word).collect()
    }

    #[test]
    fn both_ways_agree() {
        for (kind, rank) in [(A, 1), (A, 2), (A, 3), (A, 4), (B, 2), (B, 3), (D, 4)] {
            let words = words(rank, 60);
            for present in &words {
                let mut form = [0; 64];
                let letters = word::write_normal_form(kind, rank, shown(kind, rank, present), &mut form).unwrap();
                let form = &form[..letters];
                for simpler in &words {
                    let few = by_part_lists(kind, rank, form, &shown(kind, rank, simpler));
                    let many = by_letters(kind, form, shown(kind, rank, simpler));
                    assert_eq!(few.is_some(), many.is_some(), "kind {kind}, rank {rank}, {present:?}, {simpler:?}");
                    for places in [few, many].into_iter().flatten() {
                        let part: Vec<u8> = places.iter().map(|&place| form[usize::from(place)]).collect();
                        assert_eq!(shown(kind, rank, &part).entries(), shown(kind, rank, simpler).entries());
                    }
                }
            }
        }
    }
}
