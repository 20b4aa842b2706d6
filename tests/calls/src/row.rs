//! A row of the table.
use std::fmt;

/// What stands in a row.
#[derive(Clone, PartialEq, Debug)]
pub enum Value {
    Number(u64),
    List(Vec<i64>),
    Counts(Vec<u64>),
    Set(u64),
    Book(Vec<u8>),
}

/// So many bytes at least that repeat those before them are written as their number.
const RUN: usize = 16;
/// The most bytes that are repeated together: a record without letters.
const GROUP: usize = 5;

/// How many bytes at the front repeat the first `group` of them, whole groups only.
fn repeated(bytes: &[u8], group: usize) -> usize {
    bytes.chunks_exact(group).take_while(|chunk| *chunk == &bytes[..group]).count() * group
}

/// The digits of a book: parts with blanks between them, each with a number of repetitions or without.
fn digits(f: &mut fmt::Formatter, bytes: &[u8]) -> fmt::Result {
    let mut rest = bytes;
    let mut blank = "";
    while !rest.is_empty() {
        let groups = (1..=GROUP).map(|group| (group, repeated(rest, group)));
        let run = groups.filter(|(_, run)| *run >= RUN).max_by_key(|(group, run)| (*run, GROUP - group));
        let (group, run) = run.unwrap_or((1, 1));
        let repeats = run >= RUN;
        f.write_str(if repeats && rest.len() < bytes.len() { " " } else { std::mem::take(&mut blank) })?;
        rest[..group].iter().try_for_each(|byte| write!(f, "{byte:02x}"))?;
        if repeats {
            write!(f, "*{}", run / group)?;
            blank = " ";
        }
        rest = &rest[run..];
    }
    Ok(())
}

impl fmt::Display for Value {
    fn fmt(&self, f: &mut fmt::Formatter) -> fmt::Result {
        match self {
            Value::Number(number) => write!(f, "{number}"),
            Value::List(list) => {
                f.write_str("[")?;
                for (at, entry) in list.iter().enumerate() {
                    write!(f, "{}{entry}", if at == 0 { "" } else { "," })?;
                }
                f.write_str("]")
            }
            Value::Set(bits) => write!(f, "\"{bits}\""),
            Value::Counts(counts) => {
                f.write_str("\"")?;
                for (at, count) in counts.iter().enumerate() {
                    write!(f, "{}{count}", if at == 0 { "" } else { " " })?;
                }
                f.write_str("\"")
            }
            Value::Book(bytes) => {
                f.write_str("\"")?;
                digits(f, bytes)?;
                f.write_str("\"")
            }
        }
    }
}

/// A call with its answer. `refused` is the refusal of two words of which none is the better for that reason.
#[derive(Clone, PartialEq, Debug)]
pub struct Row {
    pub call: &'static str,
    pub given: Vec<(&'static str, Value)>,
    pub room: Vec<(&'static str, usize)>,
    pub answer: i64,
    pub refused: Option<i64>,
    pub written: Vec<(&'static str, Value)>,
}

/// The fields of an object.
fn object<T: fmt::Display>(f: &mut fmt::Formatter, name: &str, fields: &[(&str, T)]) -> fmt::Result {
    write!(f, ",\"{name}\":{{")?;
    for (at, (field, value)) in fields.iter().enumerate() {
        write!(f, "{}\"{field}\":{value}", if at == 0 { "" } else { "," })?;
    }
    f.write_str("}")
}

impl fmt::Display for Row {
    fn fmt(&self, f: &mut fmt::Formatter) -> fmt::Result {
        write!(f, "{{\"call\":\"{}\"", self.call)?;
        object(f, "given", &self.given)?;
        if !self.room.is_empty() {
            object(f, "room", &self.room)?;
        }
        write!(f, ",\"answer\":{}", self.answer)?;
        if let Some(refusal) = self.refused {
            write!(f, ",\"refused\":{refusal}")?;
        }
        if !self.written.is_empty() {
            object(f, "written", &self.written)?;
        }
        f.write_str("}")
    }
}
