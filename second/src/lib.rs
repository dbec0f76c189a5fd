//! A second program for polynomial matrices over the residues modulo a prime:
//! weak Popov form, single step, Popov form, determinant and printer.
//!
//! It is written from the paper alone, for reading beside it, and is compared
//! with the proved program. Each module names the part of the paper that it
//! follows. "The report" is the technical report that the paper rests on.
//!
//! Rows and columns are counted from 0 inside the program. What leaves it and
//! what the paper counts from 1 (pivot index, row list, buffer of a refusal)
//! is counted from 1 here too.

pub mod check;
pub mod det;
pub mod field;
pub mod fuzz;
pub mod matrix;
pub mod poly;
pub mod popov;
pub mod printer;
pub mod progress;
#[cfg(feature = "proved")]
pub mod proved;
pub mod reduce;
pub mod refuse;
pub mod sample;
pub mod workers;
