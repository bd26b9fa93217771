//! Independent second solver of Bucketmonk, written from the scope paper and
//! its two sources. It is not proved; it is the partner against which the
//! proved solver is compared.
//!
//! - `tables`: the solver on tables of records and lent memory.
//! - `memory`: the lent arrays, held together.
//! - `reader`: the reader of the text form.
//! - `program`: the output of the whole program for a text.
//! - `brute`: a naive reference, used only by the tests of this package.
//! - `support`: what these tests and the comparisons share.

#![forbid(unsafe_code)]

pub mod brute;
pub mod memory;
pub mod program;
pub mod reader;
pub mod support;
pub mod tables;
