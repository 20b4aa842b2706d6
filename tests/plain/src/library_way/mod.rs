//! Requests 2, 4 and 10 in the library's ways: a measure for the benchmark, as fast as plain Rust is with the same
//! method. These are not independent of the library, and the comparison does not use them.
mod between;
mod split;
mod traces;

pub use between::between;
pub use split::split;
pub use traces::{rewrite_steps, rewrite_to_end};
