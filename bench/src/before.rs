//! The archive of an earlier commit, if the build was told of one (`build.rs`). If not, the present one stands in its
//! place, so that the calls are compiled, and is not timed.
#![allow(dead_code)]

#[cfg(before)]
include!(concat!(env!("OUT_DIR"), "/before.rs"));

#[cfg(not(before))]
pub use winnathey::raw::*;
