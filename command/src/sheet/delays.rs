//! The delay table of a rig on the sheet, with the book's presets marked; or what is lacking, and why.
use super::{Given, pages};
use crate::failure::Failure;
use crate::library::{self, Preset, Refusal, Rig};
use crate::pictures::{bars, escaped};
use crate::text;
use std::fmt::Write;

pub fn part(given: &Given, rig: Rig, presets: &[Result<Preset, Refusal>]) -> Result<String, Failure> {
    let mut lengths = Vec::new();
    for (number, preset) in presets.iter().enumerate() {
        if let Ok(Preset { rig: its, word }) = preset
            && *its == rig
        {
            lengths.push((library::length(rig, word)?, number));
        }
    }
    let content = match library::delays(rig) {
        Ok(delays) => answered(given, rig, &delays.counts, &lengths),
        Err(refusal) => lacking(rig, refusal, &lengths),
    };
    let page = pages::of_rig(rig);
    Ok(format!("<section class=\"delays\" style=\"page: {page}\">\n<h2>Delays of {rig}</h2>\n{content}</section>\n"))
}

fn answered(given: &Given, rig: Rig, counts: &[u64], lengths: &[(usize, usize)]) -> String {
    let marked: Vec<usize> = lengths.iter().map(|(length, _)| *length).collect();
    let mut part = format!(
        "<p>How many windows of {rig} have each length. A length that a preset of this book has is marked.</p>\n<figure>\n{}\
         </figure>\n",
        bars::on_paper(&rig.to_string(), counts, &marked)
    );
    let delay = given.names.delay();
    let head = if delay.is_some() { "<th class=\"count\">ms</th>" } else { "" };
    let _ = write!(
        part,
        "<div class=\"lengths\">\n<table>\n<thead><tr><th class=\"count\">Length</th>{head}<th class=\"count\">Windows\
         </th><th>Presets</th></tr></thead>\n<tbody>\n"
    );
    for (length, &count) in counts.iter().enumerate() {
        let here = presets_of(lengths, length);
        let class = if here.is_empty() { "" } else { " class=\"marked\"" };
        let time = delay.map_or(String::new(), |delay| {
            format!("<td class=\"count\">{}</td>", text::thousandths(delay * length as u64))
        });
        let _ = writeln!(
            part,
            "<tr{class}><td class=\"count\">{length}</td>{time}<td class=\"count\">{}</td><td class=\"name\">{here}</td></tr>",
            text::grouped(count)
        );
    }
    part + "</tbody>\n</table>\n</div>\n"
}

/// The numbers of the presets that have a length.
fn presets_of(lengths: &[(usize, usize)], length: usize) -> String {
    let here = lengths.iter().filter(|(its, _)| *its == length).map(|(_, number)| number.to_string());
    here.collect::<Vec<_>>().join(", ")
}

fn lacking(rig: Rig, refusal: Refusal, lengths: &[(usize, usize)]) -> String {
    let mut lengths = lengths.to_vec();
    lengths.sort_unstable();
    let list: Vec<String> = lengths.iter().map(|(length, number)| format!("{length} (preset {number})")).collect();
    format!(
        "<p>There is no table for {rig}: {}. It would say how many windows of the rig have each length, and how long the \
         longest is; at this rank the counts exceed 64 bits.</p>\n<p>The lengths of the presets in this book: {}.</p>\n",
        escaped(&in_a_sentence(&refusal.message().to_string())),
        list.join(", ")
    )
}

/// A sentence as the end of another one.
fn in_a_sentence(text: &str) -> String {
    let mut characters = text.trim_end_matches('.').chars();
    let first = characters.next().map(|first| first.to_lowercase().to_string()).unwrap_or_default();
    first + characters.as_str()
}
