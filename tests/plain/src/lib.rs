//! The requirement once more, in plain Rust: written from its text alone and sharing no line with the
//! verified library, to compare it with. Only [`library_way`] works as the library does, and only the benchmark calls it.
//!
//! Each function answers as the C interface does: 0 or more is the answer, -k is refusal k. A refused
//! call writes nothing, an accepted one only the front of its outputs.
#![forbid(unsafe_code)]

mod between;
mod book;
mod checks;
mod fallback;
mod kept;
pub mod library_way;
mod rules;
mod search;
mod split;
mod table;
mod traces;
mod window;
mod word;

pub use between::{between, is_way};
pub use book::{
    append, book_check, preset, presets, second_append, second_book_check, second_preset, second_presets, to_first,
    to_second,
};
pub use fallback::{NO_FALLBACK, fallback};
pub use rules::{NONE_FITS, Rule, rewrite, rules};
pub use search::{FEW_STEPS, TOO_MANY};
pub use split::{is_split, split};
pub use traces::{rewrite_steps, rewrite_to_end};

use checks::{check_preset, check_rank, check_window, check_word};
use window::{Window, inverse_into, length, product_into};

pub const A: u32 = 1;
pub const B: u32 = 2;
pub const D: u32 = 3;

pub const MAX_LANES: usize = 64;
pub const MAX_LETTERS: usize = 4096;
pub const MAX_BOOK: usize = 65535;

/// A refusal's number.
pub(crate) type Refusal = i64;

/// An answer or a refusal in one number.
pub(crate) fn coded(answer: Result<usize, Refusal>) -> i64 {
    match answer {
        Ok(n) => n as i64,
        Err(k) => -k,
    }
}

/// The number of lanes. The rank has been checked.
pub(crate) fn lanes(kind: u32, rank: u8) -> usize {
    rank as usize + usize::from(kind == A)
}

/// The front of an output that is long enough.
pub(crate) fn front<T>(out: &mut [T], n: usize) -> Result<&mut [T], Refusal> {
    out.get_mut(..n).ok_or(14)
}

pub fn window_of_word(kind: u32, rank: u32, word: &[u8], out: &mut [i8]) -> i64 {
    coded((|| {
        let rank = check_preset(kind, rank, word)?;
        let m = lanes(kind, rank);
        let out = front(out, m)?;
        let mut window = Window::straight(m);
        window.apply(kind, word);
        out.copy_from_slice(window.entries());
        Ok(m)
    })())
}

pub fn normal_form_of_word(kind: u32, rank: u32, word: &[u8], out: &mut [u8]) -> i64 {
    coded((|| {
        let rank = check_preset(kind, rank, word)?;
        let mut window = Window::straight(lanes(kind, rank));
        window.apply(kind, word);
        word::write_normal_form(kind, rank, window, out)
    })())
}

pub fn normal_form_of_window(kind: u32, rank: u32, window: &[i8], out: &mut [u8]) -> i64 {
    coded((|| {
        let rank = check_rank(kind, rank)?;
        check_window(kind, rank, window)?;
        word::write_normal_form(kind, rank, Window::from(window), out)
    })())
}

pub fn product_of_words(kind: u32, rank: u32, first: &[u8], second: &[u8], out: &mut [u8]) -> i64 {
    coded((|| {
        let rank = check_preset(kind, rank, first)?;
        check_word(rank, second)?;
        let mut window = Window::straight(lanes(kind, rank));
        window.apply(kind, first);
        window.apply(kind, second);
        word::write_normal_form(kind, rank, window, out)
    })())
}

pub fn product_of_windows(kind: u32, rank: u32, first: &[i8], second: &[i8], out: &mut [i8]) -> i64 {
    coded((|| {
        let rank = check_rank(kind, rank)?;
        check_window(kind, rank, first)?;
        check_window(kind, rank, second)?;
        let m = second.len();
        product_into(first, second, front(out, m)?);
        Ok(m)
    })())
}

pub fn inverse_of_word(kind: u32, rank: u32, word: &[u8], out: &mut [u8]) -> i64 {
    coded((|| {
        let rank = check_preset(kind, rank, word)?;
        let m = lanes(kind, rank);
        let mut window = Window::straight(m);
        window.apply(kind, word);
        let mut inverse = Window::straight(m);
        inverse_into(window.entries(), inverse.entries_mut());
        word::write_normal_form(kind, rank, inverse, out)
    })())
}

pub fn inverse_of_window(kind: u32, rank: u32, window: &[i8], out: &mut [i8]) -> i64 {
    coded((|| {
        let rank = check_rank(kind, rank)?;
        check_window(kind, rank, window)?;
        let m = window.len();
        inverse_into(window, front(out, m)?);
        Ok(m)
    })())
}

pub fn length_of_word(kind: u32, rank: u32, word: &[u8]) -> i64 {
    coded((|| {
        let rank = check_preset(kind, rank, word)?;
        let mut window = Window::straight(lanes(kind, rank));
        window.apply(kind, word);
        Ok(length(kind, window.entries()))
    })())
}

pub fn length_of_window(kind: u32, rank: u32, window: &[i8]) -> i64 {
    coded((|| {
        let rank = check_rank(kind, rank)?;
        check_window(kind, rank, window)?;
        Ok(length(kind, window))
    })())
}

/// Writes numbers to the front of a list. Answers their sum.
fn listed<const N: usize>(numbers: [usize; N], list: &mut [u64]) -> Result<usize, Refusal> {
    front(list, N)?.copy_from_slice(&numbers.map(|number| number as u64));
    Ok(numbers.iter().sum())
}

/// The length as its three counts: plain pairs, pairs against a mirrored lane, mirrored lanes. Answers the total.
pub fn crossings_of_word(kind: u32, rank: u32, word: &[u8], counts: &mut [u64]) -> i64 {
    coded((|| {
        let rank = check_preset(kind, rank, word)?;
        let mut window = Window::straight(lanes(kind, rank));
        window.apply(kind, word);
        listed(window::crossings(kind, window.entries()), counts)
    })())
}

pub fn crossings_of_window(kind: u32, rank: u32, window: &[i8], counts: &mut [u64]) -> i64 {
    coded((|| {
        let rank = check_rank(kind, rank)?;
        check_window(kind, rank, window)?;
        listed(window::crossings(kind, window), counts)
    })())
}

/// How many windows of a kind and rank have each length, the longest window and its normal form, with the length of each
/// in `lengths`. Answers the greatest length.
pub fn delay_table(
    kind: u32,
    rank: u32,
    counts: &mut [u64],
    window: &mut [i8],
    form: &mut [u8],
    lengths: &mut [u64],
) -> i64 {
    coded((|| {
        let rank = check_rank(kind, rank)?;
        if rank > if kind == A { 19 } else { 16 } {
            return Err(20);
        }
        let n = usize::from(rank);
        let greatest = match kind {
            A => n * (n + 1) / 2,
            B => n * n,
            _ => n * (n - 1),
        };
        let counts = front(counts, greatest + 1)?;
        let window = front(window, lanes(kind, rank))?;
        let form = front(form, greatest)?;
        listed([counts.len(), window.len(), greatest], lengths)?;
        table::count(kind, n, counts);
        table::longest(kind, n, window);
        word::write_normal_form(kind, rank, Window::from(window), form)
    })())
}

/// 1 if the two presets have as many lanes and show the same, whatever their kinds, 0 if not.
pub fn same(kind1: u32, rank1: u32, word1: &[u8], kind2: u32, rank2: u32, word2: &[u8]) -> i64 {
    coded((|| {
        let rank1 = check_preset(kind1, rank1, word1)?;
        let rank2 = check_preset(kind2, rank2, word2)?;
        Ok(usize::from(window::alike((kind1, rank1, word1), (kind2, rank2, word2))))
    })())
}

/// 1 or 2 for the better word, 0 for neither: the windows differ or a check refuses.
pub fn better(kind: u32, rank: u32, first: &[u8], second: &[u8]) -> i64 {
    let Ok(rank) = check_preset(kind, rank, first) else { return 0 };
    if check_word(rank, second).is_err() || !window::alike((kind, rank, first), (kind, rank, second)) {
        return 0;
    }
    // The HIGHER step comes first, so at equal lengths the greater list of bytes is the earlier word.
    let second_wins = second.len() < first.len() || (second.len() == first.len() && second > first);
    if second_wins { 2 } else { 1 }
}
