//! `normal`: the normal form of a word or of a window.
use crate::args::Args;
use crate::failure::Failure;
use crate::json::list;
use crate::out::Out;
use crate::table::{self, Subcommand, Verdict};
use crate::{asked, text};
use std::io::Write;

pub const SUBCOMMAND: Subcommand = Subcommand {
    name: "normal",
    group: table::WORDS,
    about: "the normal form of a word or of a window",
    usages: &["RIG WORD", "RIG '[WINDOW]'", "--book FILE --edition EDITION --preset N"],
    text: "Of all words that show the same, the shortest, and of those the first in the dictionary, where the HIGHER \
           step comes first.",
    operands: &[table::RIG, table::WORD],
    options: &[table::EMPTY, table::FROM_BOOK, table::EDITION, table::TIMEOUT, table::PRESET],
    examples: &["winnathey normal A2 1 2 1", "winnathey normal D5 '[3 -5 1 4 -2]'"],
    json: &[table::READ, table::FORM, table::SHOWS],
    paged: false,
    run,
};

fn run(mut args: Args, out: &mut Out) -> Result<Verdict, Failure> {
    let asked = asked::preset(&mut args, out)?;
    let (form, window) = (asked.form()?, asked.window()?);
    if out.json {
        let mut fields = asked.fields();
        fields.extend([("normal_form", list(&form)), ("window", list(&window))]);
        out.answer("normal", fields)?;
        return Ok(Verdict::Answer);
    }
    writeln!(out, "{}", asked.heading())?;
    writeln!(out, "normal form, {}: {}", text::counted(form.len(), "letter"), text::word(&form))?;
    writeln!(out, "shows {}", text::spaced(&window))?;
    Ok(Verdict::Answer)
}
