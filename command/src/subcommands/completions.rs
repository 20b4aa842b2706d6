//! `completions`: what a shell needs to complete the command.
use crate::args::Args;
use crate::completions;
use crate::failure::Failure;
use crate::json::Value;
use crate::out::Out;
use crate::table::{self, Completes, Operand, Subcommand, Verdict};
use crate::{suggest, text};
use std::io::Write;

const SHELL: Operand = Operand { name: "SHELL", about: "bash, zsh or fish", completes: Completes::OneOf(SHELLS) };
const SHELLS: &[&str] = &["bash", "zsh", "fish"];

pub const SUBCOMMAND: Subcommand = Subcommand {
    name: "completions",
    group: table::ITSELF,
    about: "completions for bash, zsh or fish",
    usages: &["SHELL"],
    text: "Prints what the shell reads to complete subcommands, options, files and editions. The examples say where \
           each shell looks for it.",
    operands: &[SHELL],
    options: &[],
    examples: &[
        "eval \"$(winnathey completions bash)\"",
        "winnathey completions zsh > ~/.zfunc/_winnathey",
        "winnathey completions fish > ~/.config/fish/completions/winnathey.fish",
    ],
    json: &[&[("shell", "bash, zsh or fish"), ("script", "what the shell reads")]],
    paged: false,
    run,
};

fn run(mut args: Args, out: &mut Out) -> Result<Verdict, Failure> {
    let shell = args.next("SHELL")?;
    args.done()?;
    let shell = shell.to_string_lossy();
    let script = match &*shell {
        "bash" => completions::bash(),
        "zsh" => completions::zsh(),
        "fish" => completions::fish(),
        other => {
            let meant = suggest::question(other, SHELLS.iter().copied());
            return Err(args.usage(format!("no completions for '{}': bash, zsh or fish{meant}", text::plain(other))));
        }
    };
    if out.json {
        out.answer("completions", vec![("shell", shell.as_ref().into()), ("script", Value::Text(script))])?;
    } else {
        write!(out, "{script}")?;
    }
    Ok(Verdict::Answer)
}
