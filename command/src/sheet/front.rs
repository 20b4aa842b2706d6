//! The first page: what the sheet is of, warnings, places to sign, how to check it, the contents and the legend.
use super::{Given, milliseconds, row};
use crate::books;
use crate::failure::Failure;
use crate::library::{self, ARCHIVE_SHA256, Preset, Refusal, VERSION};
use crate::pictures::{escaped, strands};
use crate::{sha256, text};

/// Lines to write on.
const LINE: &str = "<span class=\"blank\">&nbsp;</span>";

type Read<'a> = Result<Preset<'a>, Refusal>;

pub fn part(given: &Given, title: &str, presets: &[Read]) -> Result<String, Failure> {
    let mut part = format!("<section class=\"front\">\n<h1>{}</h1>\n", escaped(title));
    part += &warning(given.warnings);
    part += &facts(given, presets.len());
    part += &signing();
    part += &checking(given);
    part += "</section>\n";
    part += &contents(given, presets)?;
    Ok(part + &legend())
}

fn warning(warnings: &[String]) -> String {
    if warnings.is_empty() {
        return String::new();
    }
    let lines: String = warnings.iter().map(|warning| format!("<p>Warning: {}.</p>\n", escaped(warning))).collect();
    format!("<div class=\"warning\">\n{lines}</div>\n")
}

fn facts(given: &Given, presets: usize) -> String {
    let book = given.book;
    let date = given.date.as_ref().map_or(LINE.to_string(), |date| escaped(&text::plain(date)));
    let size = format!("{}, {}", text::counted(presets, "preset"), text::counted(book.bytes.len(), "byte"));
    let hash = |hash: &str| format!("<span class=\"hash\">{hash}</span>");
    let mut table = "<table class=\"facts\">\n".to_string();
    table += &row("Date", &date);
    table += &row("Book", &format!("{}, {} edition, {size}", escaped(&book.file), books::name(book.edition)));
    table += &row("SHA-256 of the book", &hash(&sha256::hex(&book.bytes)));
    match &given.names.sha256 {
        None => table += &row("Names", "none"),
        Some(names) => {
            table += &row("Names", &escaped(&given.names_file));
            table += &row("SHA-256 of the names", &hash(names));
        }
    }
    if let Some(file) = given.names.photograph() {
        let why = match &given.photograph {
            Some(Err(why)) => format!("not printed: {why}"),
            _ => file.to_string(),
        };
        table += &row("Photograph", &escaped(&why));
    }
    if let Some(delay) = given.names.delay() {
        table += &row("Delay of a step", &format!("{} ms", text::thousandths(delay)));
    }
    table += &row("Library", &format!("winnathey {VERSION}, file libwinnathey.a"));
    table += &row("SHA-256 of the library", &hash(ARCHIVE_SHA256));
    table + "</table>\n"
}

fn signing() -> String {
    let two = |one: &str, two: &str| format!("<tr><th>{one}</th><td>{LINE}</td><th>{two}</th><td>{LINE}</td></tr>\n");
    format!("<table class=\"signing\">\n{}{}</table>\n", two("Centre", "Cabin"), two("Instructor", "Signature"))
}

fn checking(given: &Given) -> String {
    let (book, edition) = (quoted(&given.book.file), books::name(given.book.edition));
    let certificate = quoted(&format!("{}.jsonl", given.book.file));
    let line = |line: String| format!("<br><code>{}</code>\n", escaped(&line));
    format!(
        "<p class=\"checking\">Every word, window and count on this sheet is an answer of the verified library. The first line \
         writes the evidence for each, the second checks it without the library; verify_certificate.py comes \
         with the command, in share/winnathey:\n{}{}</p>\n",
        line(format!("winnathey certify {book} --edition {edition} -o {certificate}")),
        line(format!("python3 verify_certificate.py {book} {certificate} --edition {edition}"))
    )
}

/// As a shell takes it.
fn quoted(file: &str) -> String {
    let is_plain = |character: char| character.is_alphanumeric() || "/._+-".contains(character);
    if file.chars().all(is_plain) { file.to_string() } else { format!("'{}'", file.replace('\'', "'\\''")) }
}

fn contents(given: &Given, presets: &[Read]) -> Result<String, Failure> {
    let mut table = "<section class=\"contents-part\">\n<h2>Contents</h2>\n<table class=\"contents\">\n<thead><tr><th>\
                     Preset</th><th>Name</th><th>Rig</th><th class=\"count\">Letters</th><th class=\"count\">Shortest \
                     version</th></tr></thead>\n<tbody>\n"
        .to_string();
    for (number, preset) in presets.iter().enumerate() {
        let name = escaped(given.names.preset(number).unwrap_or_default());
        let front = format!("<td><a href=\"#preset-{number}\">Preset {number}</a></td><td class=\"name\">{name}</td>");
        let rest = match preset {
            Err(refusal) => format!("<td colspan=\"3\">refused {}</td>", refusal.number()),
            Ok(Preset { rig, word }) => {
                let form = library::normal_form(*rig, word)?.len();
                let cell = |letters: usize| {
                    let count = text::grouped(letters as u64);
                    format!("<td class=\"count\">{count}{}</td>", milliseconds(given.names, letters))
                };
                format!("<td class=\"short\">{rig}</td>{}{}", cell(word.len()), cell(form))
            }
        };
        table += &format!("<tr>{front}{rest}</tr>\n");
    }
    Ok(table + "</tbody>\n</table>\n</section>\n")
}

/// One for all pictures.
fn legend() -> String {
    let notes = [
        "A word is a list of steps, taken from the left; a letter is the number of a step. The shortest version shows the \
         same with the fewest steps: it is the word's normal form.",
        "A window has the source on each screen in turn, with a minus sign if it is mirrored.",
        strands::LINES,
        strands::MIRRORS,
        "A number above a column or beside a crossing is its step; in a long word, steps that touch different lanes share \
         a column, and the word goes on in the next row.",
    ];
    let notes: String = notes.iter().map(|note| format!("<li>{note}</li>\n")).collect();
    format!("<section class=\"legend\">\n<h2>How to read it</h2>\n<ul>\n{notes}</ul>\n</section>\n")
}

#[cfg(test)]
mod tests {
    use super::*;

    #[test]
    fn file_names_are_quoted_for_a_shell() {
        assert_eq!(quoted("my/cabin-3.book"), "my/cabin-3.book");
        assert_eq!(quoted("it's mine"), "'it'\\''s mine'");
    }
}
