//! `inverse`: the preset that undoes another.
use super::product;
use crate::args::Args;
use crate::failure::Failure;
use crate::json::list;
use crate::out::Out;
use crate::table::{self, Subcommand, Verdict};
use crate::{asked, library};
use std::io::Write;

pub const SUBCOMMAND: Subcommand = Subcommand {
    name: "inverse",
    group: table::WORDS,
    about: "the preset that undoes another, of a word or window",
    usages: &["RIG WORD", "RIG '[WINDOW]'", "--book FILE --edition EDITION --preset N"],
    text: "The normal form of the word that, after the given one, leads back to the straight window, and what it shows \
           alone.",
    operands: &[table::RIG, table::WORD],
    options: &[table::EMPTY, table::FROM_BOOK, table::EDITION, table::TIMEOUT, table::PRESET],
    examples: &["winnathey inverse A2 1 2", "winnathey inverse B3 '[2 3 -1]'"],
    json: &[table::READ, table::FORM, table::SHOWS],
    paged: false,
    run,
};

fn run(mut args: Args, out: &mut Out) -> Result<Verdict, Failure> {
    let asked = asked::preset(&mut args, out)?;
    let form = library::inverse_of_word(asked.rig(), asked.letters()).map_err(|refusal| asked.refused(refusal))?;
    let window = library::inverse_of_window(asked.rig(), &asked.window()?)?;
    if out.json {
        let mut fields = asked.fields();
        fields.extend([("normal_form", list(&form)), ("window", list(&window))]);
        out.answer("inverse", fields)?;
        return Ok(Verdict::Answer);
    }
    writeln!(out, "{}, the inverse of {}", asked.rig(), product::factor(&asked))?;
    product::told(&form, &window, out)
}
