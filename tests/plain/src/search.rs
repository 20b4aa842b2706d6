//! All windows to which allowed steps lead from one, gone through breadth first.
use crate::window::Window;
use std::collections::{HashMap, VecDeque};

/// With so many allowed steps there are at most 384 windows to go through, which is what kind B has at rank 4.
pub const FEW_STEPS: u32 = 4;

/// The answer of a call with more allowed steps, where no check refuses it: the windows are too many to go through.
pub const TOO_MANY: i64 = -102;

pub(crate) fn is_allowed(allowed: u64, step: u8) -> bool {
    allowed >> (step - 1) & 1 == 1
}

pub(crate) fn allowed_steps(rank: u8, allowed: u64) -> impl DoubleEndedIterator<Item = u8> {
    (1..=rank).filter(move |&step| is_allowed(allowed, step))
}

/// Each window with the first word over the allowed steps that leads there. All words come by their lengths, and at each
/// length in dictionary order; the first word to reach a window keeps it.
pub(crate) fn first_words(kind: u32, rank: u8, allowed: u64, from: &[i8]) -> HashMap<Vec<i8>, Vec<u8>> {
    let mut found = HashMap::from([(from.to_vec(), Vec::new())]);
    let mut windows = VecDeque::from([from.to_vec()]);
    while let Some(window) = windows.pop_front() {
        for step in allowed_steps(rank, allowed).rev() {
            let mut shown = Window::from(&window);
            shown.apply(kind, &[step]);
            if !found.contains_key(shown.entries()) {
                found.insert(shown.entries().to_vec(), [&found[&window][..], &[step]].concat());
                windows.push_back(shown.entries().to_vec());
            }
        }
    }
    found
}
