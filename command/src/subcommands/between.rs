//! `between`: the way from one window to another over allowed steps.
use crate::args::Args;
use crate::culprit::Given;
use crate::failure::Failure;
use crate::json::list;
use crate::out::Out;
use crate::table::{self, Completes, Operand, Subcommand, Verdict};
use crate::{library, text, typed};
use std::io::Write;

const WINDOWS: Operand = Operand {
    name: "FROM, TO",
    about: "windows, one argument each: a number for each lane with spaces or commas between them, with a minus sign \
            where the lane is mirrored; - reads one from standard input",
    completes: Completes::Nothing,
};

pub const SUBCOMMAND: Subcommand = Subcommand {
    name: "between",
    group: table::PRESETS,
    about: "the shortest word from one window to another over allowed steps",
    usages: &["RIG FROM TO [--allowed STEPS | --locked STEPS]"],
    text: "The word over the allowed steps that leads from what is shown to what is wanted: a shortest one, and of \
           those the first in the dictionary, where the HIGHER step comes first. Refused (19) if no word over these \
           steps leads there.",
    operands: &[table::RIG, WINDOWS],
    options: &[table::ALLOWED, table::LOCKED],
    examples: &[
        "winnathey between D5 '1 2 3 4 5' '3 -5 1 4 -2'",
        "winnathey between D5 '1 2 3 4 5' '3 -5 1 4 -2' --locked 4",
    ],
    json: &[
        &[("rig", "kind, rank and number of lanes"), ("from", "the first window"), ("to", "the second window")],
        table::ALLOWED_STEPS,
        &[("word", "the letters of the word that leads there")],
    ],
    paged: false,
    run,
};

fn run(mut args: Args, out: &mut Out) -> Result<Verdict, Failure> {
    let rig = args.rig()?;
    let from = args.next_window("FROM")?;
    let to = args.next_window("TO")?;
    args.done_with("; each window is one argument, as '1 2' or 1,2")?;
    let set = args.set(rig.rig.rank)?;
    let given = Given { rig: Some(&rig), windows: &[&from, &to], set: Some(set), ..Given::default() };
    let word = library::between(rig.rig, set.allowed, &from.entries, &to.entries);
    let word = word.map_err(|refusal| given.refused(refusal))?;
    if out.json {
        let fields = vec![
            ("rig", typed::rig(rig.rig)),
            ("from", list(&from.entries)),
            ("to", list(&to.entries)),
            ("allowed", list(text::steps(set.allowed))),
            ("word", list(&word)),
        ];
        out.answer("between", fields)?;
        return Ok(Verdict::Answer);
    }
    writeln!(out, "{}, from {} to {}", rig.rig, text::spaced(&from.entries), text::spaced(&to.entries))?;
    writeln!(out, "{}", set.told())?;
    if word.is_empty() {
        writeln!(out, "no step is needed: the windows are equal")?;
    } else {
        writeln!(out, "{}: {}", text::counted(word.len(), "step"), text::spaced(&word))?;
    }
    Ok(Verdict::Answer)
}
