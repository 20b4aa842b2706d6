//! What a call has to answer: the plain version's answer. With more allowed steps than the plain version goes through, a
//! split and a way are the library's own, with room for every word, once they have the properties that define them.
use crate::sides::ROOM;
pub use plain::*;
use std::cell::RefCell;
use winnathey::raw;

/// The answer where the library's own has not the properties: no call answers so.
pub const WRONG: i64 = -103;

/// The last input whose answer was held to the properties, with that answer, or with none where it has them not.
type Held<I, W> = RefCell<Option<(I, Option<W>)>>;

type Halves = (Vec<u8>, Vec<u8>);
type WordInput = (u32, u32, u64, Vec<u8>);
/// The word, or the refusal.
type Way = Result<Vec<u8>, i64>;
type WindowsInput = (u32, u32, u64, Vec<i8>, Vec<i8>);

thread_local! {
    static SPLIT: Held<WordInput, Halves> = const { RefCell::new(None) };
    static WAY: Held<WindowsInput, Way> = const { RefCell::new(None) };
}

/// The answer for an input, asked for anew where it is not the last one.
fn held<I: PartialEq, W: Clone>(last: &Held<I, W>, input: I, ask: impl FnOnce() -> Option<W>) -> Option<W> {
    let mut last = last.borrow_mut();
    match &*last {
        Some((old, answer)) if *old == input => answer.clone(),
        _ => {
            let answer = ask();
            *last = Some((input, answer.clone()));
            answer
        }
    }
}

fn fits(word: &[u8], out: &[u8]) -> bool {
    word.len() <= out.len()
}

pub fn split(
    kind: u32,
    rank: u32,
    allowed: u64,
    word: &[u8],
    first: &mut [u8],
    second: &mut [u8],
    lengths: &mut [u64],
) -> i64 {
    let answer = plain::split(kind, rank, allowed, word, first, second, lengths);
    if answer != TOO_MANY {
        return answer;
    }
    let halves = SPLIT.with(|last| {
        held(last, (kind, rank, allowed, word.to_vec()), || {
            let (mut u, mut v, mut lengths) = (vec![0; ROOM], vec![0; ROOM], [0; 2]);
            let sum = raw::split(kind, rank, allowed, word, &mut u, &mut v, &mut lengths);
            let (u, v) = (u.get(..lengths[0] as usize)?, v.get(..lengths[1] as usize)?);
            let right = sum == (u.len() + v.len()) as i64 && is_split(kind, rank, allowed, word, u, v);
            right.then(|| (u.to_vec(), v.to_vec()))
        })
    });
    let Some((u, v)) = halves else { return WRONG };
    if !fits(&u, first) || !fits(&v, second) || lengths.len() < 2 {
        return -14;
    }
    first[..u.len()].copy_from_slice(&u);
    second[..v.len()].copy_from_slice(&v);
    lengths[..2].copy_from_slice(&[u.len() as u64, v.len() as u64]);
    (u.len() + v.len()) as i64
}

pub fn between(kind: u32, rank: u32, allowed: u64, from: &[i8], to: &[i8], out: &mut [u8]) -> i64 {
    let answer = plain::between(kind, rank, allowed, from, to, out);
    if answer != TOO_MANY {
        return answer;
    }
    let way = WAY.with(|last| {
        held(last, (kind, rank, allowed, from.to_vec(), to.to_vec()), || {
            let mut word = vec![0; ROOM];
            let length = raw::between(kind, rank, allowed, from, to, &mut word);
            let way = if length == -19 { Err(-19) } else { Ok(word.get(..length.try_into().ok()?)?.to_vec()) };
            is_way(kind, rank, allowed, from, to, way.as_deref().ok()).then_some(way)
        })
    });
    match way {
        None => WRONG,
        Some(Err(refusal)) => refusal,
        Some(Ok(word)) if !fits(&word, out) => -14,
        Some(Ok(word)) => {
            out[..word.len()].copy_from_slice(&word);
            word.len() as i64
        }
    }
}
