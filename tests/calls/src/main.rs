//! Writes the table of calls and answers, `tests/calls.jsonl`, from the plain version: one JSON object a line, with the
//! call's name for C without `winnathey_`, what it is given, how many places each output has, the answer, and what is
//! written to the front of each output. A refused call has no `written`.
//!
//! Lists are lists of numbers. Books are hexadecimal digits, where `00*4096` between blanks is a byte that is repeated.
//! Sets of steps, and the counts of a delay table with blanks between them, are texts of decimal digits, since they may
//! need 64 bits.
//!
//! `calls` prints the table. `cargo test -p calls` holds the stored table to it and runs it through the Rust crate.
mod cases;
mod makers;
mod row;
#[cfg(test)]
mod tests;

fn main() {
    for row in cases::all() {
        println!("{row}");
    }
}
