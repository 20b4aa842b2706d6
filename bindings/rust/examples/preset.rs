//! The window and the normal form of some presets, and a refusal.
use std::error::Error;
use winnathey::{Group, Refusal};

/// Prints what a preset shows and its normal form.
fn show(group: Group, word: &[u8]) -> Result<(), Refusal> {
    println!("{group}, word {word:?}");
    println!("  window {}", group.window_of_word(word)?);
    println!("  normal form {}", group.normal_form_of_word(word)?);
    Ok(())
}

fn main() -> Result<(), Box<dyn Error>> {
    show("B2".parse()?, &[1, 2, 1, 2])?;
    show("D5".parse()?, &[4, 4, 2, 5, 3, 5, 1, 2])?;
    // Kind B at rank 2 has no step 3.
    match show("B2".parse()?, &[1, 2, 3]) {
        Ok(()) => unreachable!("the word has a letter above the rank"),
        Err(refusal) => println!("  {refusal}"),
    }
    Ok(())
}
