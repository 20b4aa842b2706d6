//! `delays`: how many windows of a rig have each length.
use crate::args::Args;
use crate::culprit::Given;
use crate::failure::Failure;
use crate::files::Sort;
use crate::json::list;
use crate::out::Out;
use crate::pictures::{self, bars};
use crate::table::{self, Subcommand, Verdict};
use crate::{library, text, typed};
use std::io::{self, Write};

pub const SUBCOMMAND: Subcommand = Subcommand {
    name: "delays",
    group: table::PRESETS,
    about: "how many windows of a rig have each length, and the longest one",
    usages: &["RIG"],
    text: "How many windows of the kind and rank have each length, as a table with bars; then the one window with the \
           greatest length, and its normal form. There are tables up to rank 19 for A and up to 16 for B and D; other \
           ranks are refused (20).",
    operands: &[table::RIG],
    options: &[
        table::SVG,
        table::PNG,
        table::FORCE.about("lets --svg or --png replace an existing file, if that is of the same sort"),
        table::TIMEOUT_OF_FILE,
    ],
    examples: &["winnathey delays B3", "winnathey delays B5 --svg delays.svg"],
    json: &[
        &[
            ("rig", "kind, rank and number of lanes"),
            ("windows", "how many windows there are"),
            ("counts", "how many have each length, from 0; they may exceed what fits 53 bits"),
            ("window", "the longest window"),
            ("normal_form", "the letters of its normal form"),
        ],
        table::PICTURE,
    ],
    paged: true,
    run,
};

fn run(mut args: Args, out: &mut Out) -> Result<Verdict, Failure> {
    let rig = args.rig()?;
    args.done()?;
    let given = Given { rig: Some(&rig), ..Given::default() };
    let target = pictures::Target::named(&args, "--svg")?;
    let delays = library::delays(rig.rig).map_err(|refusal| given.refused(refusal))?;
    let name = rig.rig.to_string();
    let windows: u64 = delays.counts.iter().sum();
    let mut fields = vec![("rig", typed::rig(rig.rig)), ("windows", windows.into())];
    if let Some(target) = target {
        let said = format!("{name}: {} windows", text::grouped(windows));
        return target.write(&bars::picture(&name, &delays.counts), Sort::Svg, "delays", (said, fields), out);
    }
    if out.json {
        fields.push(("counts", list(&delays.counts)));
        fields.push(("window", list(&delays.window)));
        fields.push(("normal_form", list(&delays.form)));
        out.answer("delays", fields)?;
        return Ok(Verdict::Answer);
    }
    writeln!(out, "{name}: {} windows, of length 0 to {}", text::grouped(windows), delays.form.len())?;
    chart(&delays.counts, out)?;
    writeln!(out, "the longest shows {}", text::spaced(&delays.window))?;
    writeln!(out, "its normal form is {}", text::spaced(&delays.form))?;
    Ok(Verdict::Answer)
}

/// The greatest number's bar, at most.
const BAR: usize = 50;

fn chart(counts: &[u64], out: &mut Out) -> io::Result<()> {
    let most = counts.iter().copied().max().unwrap_or(1);
    let width = text::grouped(most).len().max("windows".len());
    let longest = out.width.saturating_sub(width + 10).clamp(10, BAR) as u128;
    writeln!(out, "length  {:>width$}", "windows")?;
    for (length, &count) in counts.iter().enumerate() {
        // In 128 bits: 50 times the greatest number does not fit 64. A window leaves a mark, however few they are.
        let bar = (u128::from(count) * longest).div_ceil(u128::from(most)) as usize;
        writeln!(out, "{length:>6}  {:>width$}  {}", text::grouped(count), "#".repeat(bar))?;
    }
    Ok(())
}
