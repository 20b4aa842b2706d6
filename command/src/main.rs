//! `winnathey`: the verified library at the prompt. Presets are shown, explained, drawn and compared, preset books on
//! files listed, checked and changed.
//!
//! Every answer is the library's; this program reads arguments and files and puts words around the answers. What goes
//! wrong is told on standard error, with status 1, or 2 where the command was not understood.
mod acknowledged;
mod args;
mod asked;
mod books;
mod completions;
mod culprit;
mod differences;
mod drawing;
mod dry_run;
mod edit;
mod failure;
mod files;
mod help;
mod json;
mod library;
mod lines;
mod manual;
mod names;
mod numbers;
mod out;
mod parked;
mod pictures;
mod progress;
mod sha256;
mod sheet;
mod style;
mod subcommands;
mod suggest;
mod system;
mod table;
mod terminal;
mod text;
mod typed;

use args::Args;
use failure::{FAILED_ASKED_FOR_STATUS, Failure, REFUSED, STANDARD_OUTPUT};
use out::Out;
use std::ffi::OsString;
use std::io::{self, Write};
use std::process::ExitCode;
use subcommands::SUBCOMMANDS;
use table::{Subcommand, Verdict};

fn main() -> ExitCode {
    system::handle_signals();
    let arguments: Vec<OsString> = std::env::args_os().skip(1).collect();
    let given =
        |option: &str| arguments.iter().take_while(|argument| *argument != "--").any(|argument| argument == option);
    let first = arguments.first().and_then(|first| first.to_str());
    let itself = |name: &str| match name {
        "-h" | "--help" | "help" => Some("help"),
        "-V" | "--version" => Some("version"),
        _ => None,
    };
    let subcommand = first.and_then(|name| subcommands::named(name).map(|found| found.name).or_else(|| itself(name)));
    let for_status = given("--status") || first.and_then(subcommands::named).is_some_and(Subcommand::tells_status);
    let asked = failure::Asked { subcommand, for_json: given("--json"), for_status };
    let asked_for_status = asked.for_status;
    let mut out = Out::new(asked.for_json);
    let answered = if system::was_open(1) {
        run(arguments, &mut out)
    } else {
        let closed = io::Error::new(io::ErrorKind::NotConnected, "it is closed");
        Err(Failure::Stream(STANDARD_OUTPUT, closed))
    };
    let ended = out.end();
    let verdict = answered.as_ref().ok().copied();
    match answered.and_then(|verdict| Ok(ended.map(|()| verdict)?)) {
        Ok(Verdict::No) if asked_for_status => ExitCode::from(REFUSED),
        Ok(Verdict::Warned) => ExitCode::from(REFUSED),
        Ok(_) => ExitCode::SUCCESS,
        // A reader that has gone away wanted no more, but whoever asked for the status still wants it.
        Err(Failure::ClosedPipe) if asked_for_status => ExitCode::from(match verdict {
            Some(Verdict::Answer) => 0,
            Some(Verdict::No | Verdict::Warned) => REFUSED,
            None => FAILED_ASKED_FOR_STATUS,
        }),
        Err(failure) => failure.told(asked, out.taken_warnings()),
    }
}

fn run(mut arguments: Vec<OsString>, out: &mut Out) -> Result<Verdict, Failure> {
    if arguments.is_empty() {
        return Err(Failure::usage("no subcommand", None));
    }
    let first = arguments.remove(0);
    match &*first.to_string_lossy() {
        "-h" | "--help" | "help" => help::write(arguments, out)?,
        "-V" | "--version" => version(arguments, out)?,
        name if name.starts_with('-') => return Err(no_option(name)),
        name => {
            let subcommand = help::find(name)?;
            match Args::parse(subcommand, arguments)? {
                Some(args) => {
                    out.paged &= subcommand.paged;
                    out.quiet = args.flag("--quiet");
                    return (subcommand.run)(args, out);
                }
                None => help::write_one(subcommand, out)?,
            }
        }
    }
    Ok(Verdict::Answer)
}

/// An option in front of the subcommand: one that belongs behind it, or one that was misspelt.
fn no_option(name: &str) -> Failure {
    let known = SUBCOMMANDS.iter().flat_map(|subcommand| subcommand.all_options()).any(|option| option.name == name);
    let meant = if known {
        format!(": it comes behind the subcommand, as in 'winnathey SUBCOMMAND {name}'")
    } else {
        suggest::question(name, ["--help", "--version"].into_iter())
    };
    Failure::usage(format!("no option '{}' in front of a subcommand{meant}", text::plain(name)), None)
}

fn version(arguments: Vec<OsString>, out: &mut Out) -> Result<(), Failure> {
    if let Some(more) = arguments.iter().find(|argument| *argument != "--json") {
        return Err(Failure::usage(format!("one argument too many: '{}'", text::plain(&more.to_string_lossy())), None));
    }
    if out.json {
        let fields = vec![("version", library::VERSION.into()), ("library_sha256", library::ARCHIVE_SHA256.into())];
        return Ok(out.answer("version", fields)?);
    }
    Ok(writeln!(out, "winnathey {}\nlibrary SHA-256 {}", library::VERSION, library::ARCHIVE_SHA256)?)
}
