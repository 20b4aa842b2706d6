//! Checks 5 to 11 and 16.
use crate::{A, B, D, MAX_LETTERS, Refusal, lanes};

/// Hands back the rank as a byte, as steps are.
pub(crate) fn check_rank(kind: u32, rank: u32) -> Result<u8, Refusal> {
    let ranks = match kind {
        A => 1..=63,
        B => 2..=64,
        D => 4..=64,
        _ => return Err(5),
    };
    if ranks.contains(&rank) { Ok(rank as u8) } else { Err(6) }
}

/// A set of steps has no bit above the rank's; at rank 64 there is none.
pub(crate) fn check_set(rank: u8, allowed: u64) -> Result<(), Refusal> {
    if allowed.checked_shr(rank.into()).unwrap_or(0) == 0 { Ok(()) } else { Err(16) }
}

pub(crate) fn check_word(rank: u8, word: &[u8]) -> Result<(), Refusal> {
    if word.len() > MAX_LETTERS {
        return Err(7);
    }
    // No early exit: most words are good, and without one the loop takes many letters at a time.
    if word.iter().fold(true, |good, &step| good & (1..=rank).contains(&step)) { Ok(()) } else { Err(8) }
}

/// Hands back the rank as [`check_rank`] does.
pub(crate) fn check_preset(kind: u32, rank: u32, word: &[u8]) -> Result<u8, Refusal> {
    let rank = check_rank(kind, rank)?;
    check_word(rank, word)?;
    Ok(rank)
}

pub(crate) fn check_window(kind: u32, rank: u8, window: &[i8]) -> Result<(), Refusal> {
    let m = lanes(kind, rank);
    if window.len() != m {
        return Err(9);
    }
    let mut seen = 0u64;
    let mut negatives = 0;
    for &entry in window {
        let size = entry.unsigned_abs();
        if size == 0 || size as usize > m || seen >> (size - 1) & 1 == 1 || (kind == A && entry < 0) {
            return Err(10);
        }
        seen |= 1 << (size - 1);
        negatives += u32::from(entry < 0);
    }
    if kind == D && negatives % 2 == 1 {
        return Err(11);
    }
    Ok(())
}
