//! The manual page and the reference in Markdown, made from the table.
use crate::help::{self, ABOUT, END};
use crate::library::VERSION;
use crate::subcommands::SUBCOMMANDS;

/// Text for roff: a backslash, a hyphen or a line that begins with a point or a quotation mark has a meaning there.
fn escaped(text: &str) -> String {
    let text = text.replace('\\', "\\e").replace('-', "\\-");
    if text.starts_with(['.', '\'']) { format!("\\&{text}") } else { text }
}

const FILES: &str = "BOOK.names, beside a book, has names for the sources and screens of its rig and for its presets, \
in lines such as 'source 1 rear view', 'screen 3 windscreen' and 'preset 0 Motorway'; further 'place 3 40 420 160 200', where a \
screen stands in the cabin, 'photograph cabin.jpg' and 'delay 2.5', the milliseconds of one step. # begins a comment.\n\n\
Below the prefix it is installed in, /usr say, share/winnathey has command.schema.json, the schema of the JSON; \
verify_certificate.py, which checks what certify writes; and winnathey.html, the page, if that is installed too.";

const ENVIRONMENT: &str = "COLUMNS sets the width of lines. NO_COLOR turns colours off, and so does CLICOLOR=0. PAGER names the program that \
shows long answers on a terminal, less if it is not set; an empty one turns that off.";

const STATUS: &str = "0 for an answer; 1 for a refusal, a file that cannot be read or written, a refused record that check or \
list --words finds, or a sheet of report --strict that begins with a warning; 2 if the command was not understood; 4 if a \
file is written but something failed afterwards: the disk does not confirm it, or standard output, which was to say so, failed. For same and fallback with --status, and always for diff: 0 for yes, 1 for \
no, 2 if the command was not understood, 3 for any other failure.";

const JSON: &str = "With --json every subcommand prints one JSON object on one line. An answer has \"subcommand\", \
\"ok\": true and its fields; words, windows and sets are lists of numbers, a rig is {\"kind\", \"rank\", \"lanes\"}. \
A failure has \"subcommand\" (null if there is none such), \"ok\": false, \"status\" and one of \"refused\": {\"number\", \"meaning\", \"culprit\"}, \"presets\" \
(a list of refused records, each with \"preset\" and \"refused\"), \"usage\", or \"error\" with \"file\" or, \
with status 4, the file that is \"written\"; \"file\" and \"line\" say where in a file of lines. \
\"warnings\" stands there if there are any. A file's name is text, and one that is no UTF-8 is {\"name\", \"bytes\"}, \
with its bytes in hexadecimal digits. The schema is share/winnathey/command.schema.json, in the \
sources docs/command.schema.json. Fields are added in later versions, and none is taken away.";

pub fn roff() -> String {
    let mut page = format!(
        ".TH WINNATHEY 1 \"\" \"winnathey {VERSION}\"\n.SH NAME\nwinnathey \\- router presets: \
         shown, explained, drawn, compared, kept in books\n.SH SYNOPSIS\n.B winnathey\n.I SUBCOMMAND\n..\\|.\n.SH \
         DESCRIPTION\n"
    );
    page += &format!("{}\n", escaped(ABOUT));
    page = page.replace("\n..\\|.\n", "\n.RI ...\n");
    for text in END {
        page += &format!(".PP\n{}\n", escaped(text));
    }
    page += ".SH SUBCOMMANDS\n";
    for subcommand in &SUBCOMMANDS {
        page += &format!(".SS {}\n{}.\n", subcommand.name, escaped(subcommand.about));
        for usage in help::usages(subcommand) {
            page += &format!(".PP\n.B winnathey {}\n{}\n", subcommand.name, escaped(&usage));
        }
        for text in subcommand.text.split("\n\n") {
            page += &format!(".PP\n{}\n", escaped(text));
        }
        for operand in subcommand.operands {
            page += &format!(".TP\n.I {}\n{}\n", escaped(operand.name), escaped(operand.about));
        }
        for option in subcommand.all_options() {
            page += &format!(".TP\n.B {}\n{}\n", escaped(&help::option(option)), escaped(option.about));
        }
        page += ".PP\nThe fields of its answer as JSON:\n";
        for (field, what) in subcommand.fields() {
            page += &format!(".TP\n.I {}\n{}\n", escaped(field), escaped(what));
        }
        for example in subcommand.examples {
            page += &format!(".PP\n.RS\n.nf\n{}\n.fi\n.RE\n", escaped(example));
        }
    }
    for (name, text) in [("JSON", JSON), ("FILES", FILES), ("ENVIRONMENT", ENVIRONMENT), ("EXIT STATUS", STATUS)] {
        page += &format!(".SH {name}\n{}\n", text.split("\n\n").map(escaped).collect::<Vec<_>>().join("\n.PP\n"));
    }
    page
}

/// A cell of a table.
fn cell(text: &str) -> String {
    text.replace('|', "\\|")
}

pub fn markdown() -> String {
    let mut page = format!("# The command `winnathey`\n\n{ABOUT}\n\n| Subcommand | What it gives |\n|---|---|\n");
    for subcommand in &SUBCOMMANDS {
        page += &format!("| [`{0}`](#{0}) | {1} |\n", subcommand.name, cell(subcommand.about));
    }
    for subcommand in &SUBCOMMANDS {
        page += &format!("\n## {}\n\n```\n", subcommand.name);
        for usage in help::usages(subcommand) {
            page += &format!("winnathey {} {usage}\n", subcommand.name);
        }
        page += &format!("```\n\n{}\n\n| Argument | What it is |\n|---|---|\n", subcommand.text);
        for operand in subcommand.operands {
            page += &format!("| `{}` | {} |\n", operand.name, cell(operand.about));
        }
        for option in subcommand.all_options() {
            page += &format!("| `{}` | {} |\n", help::option(option), cell(option.about));
        }
        page += "\n| JSON field | What it is |\n|---|---|\n";
        for (field, what) in subcommand.fields() {
            page += &format!("| `{field}` | {} |\n", cell(what));
        }
        page += "\n```sh\n";
        for example in subcommand.examples {
            page += &format!("{example}\n");
        }
        page += "```\n";
    }
    for (name, text) in [("JSON", JSON), ("Files", FILES), ("Environment", ENVIRONMENT), ("Exit status", STATUS)] {
        page += &format!("\n## {name}\n\n{text}\n");
    }
    page
}
