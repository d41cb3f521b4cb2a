//! What the tests and the benchmark of the crate `tdisp` share. "01" in comments is the paper, "The scope and its exact rules";
//! "02" the requests that amend it.
//!
//! [`ordinary`] has the functions of `tdisp` once more, written by hand from the paper; [`calls`] has a call as a value and the
//! two responders that can run it; [`cases`] makes inputs from seeds. [`collector`] has the collector of `tdisp::host` once more,
//! written by hand as well; [`collecting`] has the two collectors side by side and their inputs.

#![forbid(unsafe_code)]

pub mod calls;
pub mod cases;
pub mod collecting;
pub mod collector;
pub mod ordinary;
