//! `split`: a preset in two, the first part over allowed steps.
use crate::args::Args;
use crate::culprit::Given;
use crate::failure::Failure;
use crate::json::list;
use crate::out::Out;
use crate::table::{self, Subcommand, Verdict};
use crate::{asked, library, text};
use std::io::Write;

pub const SUBCOMMAND: Subcommand = Subcommand {
    name: "split",
    group: table::PRESETS,
    about: "a preset in two, the first part over allowed steps",
    usages: &["RIG WORD (--allowed STEPS | --locked STEPS)", "--book FILE --edition EDITION --preset N .."],
    text: "Splits a preset into a first word over the allowed steps and a second one: no shortest word for what that \
           one shows begins with an allowed step. One after the other they show what the preset shows, their lengths \
           add up to its length, and there is just one such pair.",
    operands: &[table::RIG, table::WORD],
    options: &[
        table::EMPTY,
        table::ALLOWED,
        table::LOCKED,
        table::FROM_BOOK,
        table::EDITION,
        table::TIMEOUT,
        table::PRESET,
    ],
    examples: &["winnathey split D5 5 2 3 5 1 2 --allowed 1-3,5", "winnathey split D5 5 2 3 5 1 2 --locked 4"],
    json: &[
        table::READ,
        table::ALLOWED_STEPS,
        &[("first", "the letters of the first word"), ("second", "the letters of the second word")],
        table::FORM,
    ],
    paged: false,
    run,
};

fn run(mut args: Args, out: &mut Out) -> Result<Verdict, Failure> {
    let asked = asked::preset(&mut args, out)?;
    let set = args.set(asked.rig().rank)?;
    let given = Given { rig: Some(&asked.rig), words: &[&asked.word], set: Some(set), ..Given::default() };
    let split = library::split(asked.rig(), set.allowed, asked.letters());
    let (first, second) = split.map_err(|refusal| given.refused(refusal))?;
    let form = asked.form()?;
    if out.json {
        let mut fields = asked.fields();
        fields.push(("allowed", list(text::steps(set.allowed))));
        fields.extend([("first", list(&first)), ("second", list(&second)), ("normal_form", list(&form))]);
        out.answer("split", fields)?;
        return Ok(Verdict::Answer);
    }
    writeln!(out, "{}\n{}", asked.heading(), set.told())?;
    let parts = [
        ("first", &first, "over the allowed steps"),
        ("second", &second, "no shortest word of it begins with an allowed step"),
        ("whole", &form, "the preset's normal form"),
    ];
    for (name, part, what) in parts {
        writeln!(out, "{name:<9}{}", text::word(part))?;
        writeln!(out, "         {}, {what}", text::counted(part.len(), "letter"))?;
        writeln!(out, "         shows {}", text::spaced(&library::window(asked.rig(), part)?))?;
    }
    Ok(Verdict::Answer)
}
