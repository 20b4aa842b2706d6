//! What `--dry-run` says: the file as it is, and as it would be.
use crate::json::Value;
use crate::{sha256, text};

/// In front of what would be done.
pub const NOTHING_WRITTEN: &str = "dry run: nothing is written";

/// A book or a file of names by its size and its hash.
pub struct Measured {
    /// Of a book.
    presets: Option<usize>,
    bytes: usize,
    sha256: String,
}

impl Measured {
    pub fn book(bytes: &[u8], presets: usize) -> Measured {
        Measured { presets: Some(presets), ..Measured::file(bytes) }
    }

    pub fn file(bytes: &[u8]) -> Measured {
        Measured { presets: None, bytes: bytes.len(), sha256: sha256::hex(bytes) }
    }

    /// In a line.
    pub fn told(&self) -> String {
        let presets = self.presets.map_or(String::new(), |presets| format!("{}, ", text::counted(presets, "preset")));
        format!("{presets}{}, SHA-256 {}", text::counted(self.bytes, "byte"), self.sha256)
    }

    fn value(&self) -> Value {
        let presets = self.presets.map(|presets| ("presets", presets.into()));
        let rest = [("bytes", self.bytes.into()), ("sha256", (&self.sha256).into())];
        Value::Object(presets.into_iter().chain(rest).collect())
    }

    /// The fields of an answer that only a dry run has, of the new file; beside them the old one.
    pub fn fields(&self, old: &Measured) -> [(&'static str, Value); 3] {
        [("dry_run", true.into()), ("sha256", (&self.sha256).into()), ("old", old.value())]
    }
}
