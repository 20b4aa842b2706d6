//! From one window to another with allowed steps only.
//!
//! The word wanted is the first, in the dictionary, of the shortest words over the allowed steps that lead from the one
//! to the other. The shortest words of a window all have the same steps in them: if the normal form of what leads there
//! has a step that is not allowed, every word that leads there has one.
use crate::checks::{check_rank, check_set, check_window};
use crate::window::{Window, inverse_into, product_into};
use crate::{MAX_LETTERS, Refusal, coded, front, word};

/// The word's length, with the word in the front of `out`, or a refusal. Bit 0 of `allowed` stands for step 1.
pub fn between(kind: u32, rank: u32, allowed: u64, from: &[i8], to: &[i8], out: &mut [u8]) -> i64 {
    coded((|| {
        let rank = check_rank(kind, rank)?;
        check_set(rank, allowed)?;
        check_window(kind, rank, from)?;
        check_window(kind, rank, to)?;
        write(kind, rank, allowed, from, to, out)
    })())
}

fn write(kind: u32, rank: u8, allowed: u64, from: &[i8], to: &[i8], out: &mut [u8]) -> Result<usize, Refusal> {
    let mut back = Window::straight(from.len());
    inverse_into(from, back.entries_mut());
    let mut change = Window::straight(from.len());
    product_into(back.entries(), to, change.entries_mut());
    let mut form = [0; MAX_LETTERS];
    let letters = word::write_normal_form(kind, rank, change, &mut form)?;
    let form = &form[..letters];
    if form.iter().any(|step| allowed >> (step - 1) & 1 == 0) {
        return Err(19);
    }
    front(out, letters)?.copy_from_slice(form);
    Ok(letters)
}
