//! The sorts of file that are written, told by their first bytes.
use crate::library::{self, Edition};

#[derive(Clone, Copy, PartialEq, Eq)]
pub enum Sort {
    Book,
    Svg,
    Png,
    Html,
    Certificate,
    Pdf,
}

impl Sort {
    pub fn name(self) -> &'static str {
        match self {
            Sort::Book => "a book",
            Sort::Svg => "a picture (SVG)",
            Sort::Png => "a picture (PNG)",
            Sort::Html => "a sheet (HTML)",
            Sort::Certificate => "a certificate (JSON Lines)",
            Sort::Pdf => "a sheet (PDF)",
        }
    }

    /// Whether a file with these first bytes is of the sort; one without bytes is of any.
    pub fn fits(self, bytes: &[u8]) -> bool {
        let begins = |with: &[u8]| bytes.trim_ascii_start().starts_with(with);
        bytes.is_empty()
            || match self {
                Sort::Book => {
                    [Edition::First, Edition::Second].iter().any(|&edition| library::book_check(edition, bytes).is_ok())
                }
                Sort::Svg => begins(b"<svg") || (begins(b"<?xml") && bytes.windows(4).any(|four| four == b"<svg")),
                Sort::Png => bytes.starts_with(b"\x89PNG\r\n\x1a\n"),
                Sort::Html => begins(b"<!doctype html") || begins(b"<!DOCTYPE html"),
                Sort::Certificate => bytes.starts_with(b"{\"certificate\":"),
                Sort::Pdf => bytes.starts_with(b"%PDF-"),
            }
    }

    /// What a file with these first bytes is.
    pub fn of(bytes: &[u8]) -> &'static str {
        let sorts = [Sort::Svg, Sort::Png, Sort::Html, Sort::Certificate, Sort::Pdf, Sort::Book];
        sorts.into_iter().find(|sort| sort.fits(bytes)).map_or("a file of another sort", Sort::name)
    }
}
