//! What is said about a book that was written.
use crate::books;
use crate::dry_run::{Measured, NOTHING_WRITTEN};
use crate::edit::Change;
use crate::failure::Failure;
use crate::json::{self, list};
use crate::library;
use crate::out::Out;
use crate::text;
use std::io::Write;
use std::path::Path;

/// Says what was written, or of a dry run would be, beside the old book; only now is it acknowledged.
pub fn acknowledged(
    subcommand: &'static str,
    file: &Path,
    change: &Change,
    old: Option<&Measured>,
    out: &mut Out,
) -> Result<(), Failure> {
    let presets = library::book_check(change.edition, &change.bytes)?;
    let records = library::presets(change.edition, &change.bytes)?;
    let refused: Vec<u64> =
        (0..).zip(&records).filter(|(_, record)| record.is_err()).map(|(number, _)| number).collect();
    if out.json {
        let mut fields = vec![
            ("file", json::file(file)),
            ("edition", books::name(change.edition).into()),
            ("presets", presets.into()),
            ("bytes", change.bytes.len().into()),
            ("refused_presets", list(&refused)),
        ];
        fields.extend(change.fields.clone());
        fields.extend(old.map(|old| Measured::book(&change.bytes, presets).fields(old)).into_iter().flatten());
        out.answer(subcommand, fields)?;
    } else if !out.quiet {
        let (count, bytes) = (text::counted(presets, "preset"), text::counted(change.bytes.len(), "byte"));
        if let Some(old) = old {
            writeln!(out, "{NOTHING_WRITTEN}\n{}", change.told)?;
            writeln!(out, "{}: {}", text::file(file), Measured::book(&change.bytes, presets).told())?;
            writeln!(out, "  before: {}", old.told())?;
        } else {
            writeln!(out, "{}\n{}: {count}, {bytes}", change.told, text::file(file))?;
        }
    }
    if !out.json && !refused.is_empty() {
        let name = if refused.len() == 1 { "preset" } else { "presets" };
        let told = format!("refused in it: {name} {} (check says why)", text::spaced(&refused));
        if out.quiet {
            out.warn(format!("{}: {told}", text::file(file)));
        } else {
            writeln!(out, "{told}")?;
        }
    }
    Ok(out.flush()?)
}
