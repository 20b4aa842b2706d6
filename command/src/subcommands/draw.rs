//! `draw`: a picture of a preset.
use crate::args::Args;
use crate::drawing::{Drawing, Layout};
use crate::failure::Failure;
use crate::files::Sort;
use crate::json::{Value, list};
use crate::out::Out;
use crate::pictures::{Target, strands};
use crate::table::{self, Subcommand, Verdict};
use crate::typed::Asked;
use crate::{asked, library, terminal};
use std::io::Write;

pub const SUBCOMMAND: Subcommand = Subcommand {
    name: "draw",
    group: table::PRESETS,
    about: "a picture of a preset: its lanes, and a crossing for each step",
    usages: &["RIG WORD", "--book FILE --edition EDITION --preset N"],
    text: "Draws the sources as lines from the left to their screens at the right, and a crossing for each step. A \
           mirrored lane is a double line, a dot (* in the terminal) is a step that mirrors. Without -o or --png the \
           drawing goes to the terminal, for up to 16 lanes. In a picture a long word goes on in further rows; steps \
           that touch different lanes then share a column.",
    operands: &[table::RIG, table::WORD],
    options: &[
        table::EMPTY,
        table::BOTH,
        table::OUTPUT_PICTURE,
        table::PNG,
        table::FORCE.about("lets -o or --png replace an existing file, if that is of the same sort"),
        table::FROM_BOOK,
        table::EDITION,
        table::TIMEOUT_OF_FILE,
        table::PRESET,
        table::NAMES,
    ],
    examples: &[
        "winnathey draw D5 4 4 2 5 3 5 1 2 --both -o preset.svg",
        "winnathey draw --book presets.book --edition first --preset 1 --png preset.png",
    ],
    json: &[
        table::READ,
        table::SHOWS,
        table::PICTURE,
        &[("after_each_step", "without a file, the window after each step")],
    ],
    paged: true,
    run,
};

fn run(mut args: Args, out: &mut Out) -> Result<Verdict, Failure> {
    let asked = asked::preset(&mut args, out)?;
    let shown = asked.window()?;
    let form = if args.flag("--both") { Some(asked.form()?) } else { None };
    if let Some(target) = Target::named(&args, "-o")? {
        let picture = picture(&asked, form.as_deref())?;
        let mut fields = asked.fields();
        fields.push(("window", list(&shown)));
        return target.write(&picture, Sort::Svg, "draw", (asked.heading(), fields), out);
    }
    if out.json {
        return in_json(&asked, &shown, out);
    }
    let lanes = shown.len();
    let layout = terminal::layout(lanes, out.width);
    let layout = layout.ok_or_else(|| args.usage(format!("{lanes} lanes are too many for the terminal: -o FILE")))?;
    let drawings = drawings(&asked, form.as_deref(), &layout)?;
    if let Some(source) = asked.source() {
        writeln!(out, "{source}")?;
    }
    terminal::write(&drawings, &layout, out)?;
    Ok(Verdict::Answer)
}

/// The picture of a preset, above that of its normal form where that is wanted.
fn picture(asked: &Asked, form: Option<&[u8]>) -> Result<String, Failure> {
    let longest = asked.letters().len().max(form.map_or(0, <[u8]>::len));
    let layout = strands::layout(library::lanes(asked.rig())?, longest);
    Ok(strands::picture(&drawings(asked, form, &layout)?, layout.shared))
}

fn drawings(asked: &Asked, form: Option<&[u8]>, layout: &Layout) -> Result<Vec<Drawing>, Failure> {
    let words = [(asked.called(), asked.letters())].into_iter().chain(form.map(|form| ("normal form", form)));
    words.map(|(name, word)| Drawing::of(asked.rig(), name, word, &asked.names, layout)).collect()
}

/// The windows after each step.
fn in_json(asked: &Asked, shown: &[i8], out: &mut Out) -> Result<Verdict, Failure> {
    let letters = asked.letters();
    let windows =
        (1..=letters.len()).map(|steps| library::window(asked.rig(), &letters[..steps]).map(|window| list(&window)));
    let mut fields = asked.fields();
    fields.push(("window", list(shown)));
    fields.push(("after_each_step", Value::List(windows.collect::<Result<_, _>>()?)));
    out.answer("draw", fields)?;
    Ok(Verdict::Answer)
}
