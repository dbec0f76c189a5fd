//! Moorbesen for programs in Rust: the weak Popov form of a matrix of polynomials over Z/p, one step of it, the Popov
//! form and the determinant, by the proved functions of the library `moorbesen`.
//!
//! A matrix has n rows and m columns. A cell is a polynomial of degree at most d, in d + 1 places, constant term
//! first; zeros are never left out. Cells stand row after row, in each row column after column. A coefficient is a
//! number below p. p is a prime in 2 to 65,521, n and m are 1 to 8 each, and d is 0 to 63.
//!
//! Every call ends with an answer, and no call panics. A call that is refused leaves every buffer as it was. A call
//! that is done writes every place of every buffer that it is lent to write, whatever stood there before.
//!
//! The functions here return a `Result`. Those of [`raw`] return the library's own reply, with every number that it has.

pub mod raw;

use std::fmt;

/// The length of the buffers of the input A and of the result R or P: n·m·(d+1).
pub const fn matrix_places(n: usize, m: usize, d: usize) -> usize {
    n.saturating_mul(m).saturating_mul(d.saturating_add(1))
}

/// The length of the buffer of U: n·n·n·(d+1), each cell n·(d+1) places.
pub const fn u_places(n: usize, d: usize) -> usize {
    n.saturating_mul(v_places(n, d))
}

/// The length of the buffer of V: n·n·(d+1).
pub const fn v_places(n: usize, d: usize) -> usize {
    matrix_places(n, n, d)
}

/// The length of the buffer of a determinant: n·d+1.
pub const fn determinant_places(n: usize, d: usize) -> usize {
    n.saturating_mul(d).saturating_add(1)
}

/// Why a call was refused. The checks run in the order of the numbers, and the first that applies is the answer.
///
/// | number | when | place |
/// |---|---|---|
/// | 1 | p is not a prime in 2 to 65,521 | 0 |
/// | 2 | n or m is outside 1 to 8 | 0 |
/// | 3 | d is outside 0 to 63 | 0 |
/// | 4 | a determinant is asked for, and n and m differ | 0 |
/// | 5 | the length of a buffer is not the one that is asked | the first such buffer, counted from 1 in the order of the arguments |
/// | 6 | a coefficient of the input is p or more | its index, counted from 0, first one |
#[derive(Clone, Copy, PartialEq, Eq, Hash, Debug)]
pub struct Refusal {
    /// The number of the refusal, never 0.
    pub number: usize,
    /// The place that the table names.
    pub place: usize,
}

impl fmt::Display for Refusal {
    fn fmt(&self, f: &mut fmt::Formatter) -> fmt::Result {
        write!(f, "refused with number {}, place {}", self.number, self.place)
    }
}

impl std::error::Error for Refusal {}

/// The answer of [`reduce`].
#[derive(Clone, Copy, PartialEq, Eq, Debug)]
pub struct Reduction {
    /// The rank of A: the number of rows of R that are not zero.
    pub rank: usize,
    /// The number of steps made.
    pub count: u64,
    /// The rows of A that are listed as independent, those whose rows in R are not zero: bit i - 1 stands for row i,
    /// counted from 1.
    pub rows: usize,
}

impl Reduction {
    /// Whether the row of this number, counted from 1, is listed as independent.
    pub fn has_row(&self, row: usize) -> bool {
        (1..=8).contains(&row) && self.rows >> (row - 1) & 1 == 1
    }
}

/// The answer of [`popov`].
#[derive(Clone, Copy, PartialEq, Eq, Debug)]
pub struct Popov {
    /// The rank of A: the number of rows of P that are not zero.
    pub rank: usize,
    /// The number of steps of the first kind, those that lead to weak Popov form.
    pub first: u64,
    /// The number of steps of the second kind, those that lower the degrees beside the pivots.
    pub second: u64,
}

/// The answer, unless the number is that of a refusal.
fn answer<T>(number: usize, place: usize, done: T) -> Result<T, Refusal> {
    match number {
        0 => Ok(done),
        _ => Err(Refusal { number, place }),
    }
}

/// Writes R, the weak Popov form of A that the steps reach in their fixed order, and the matrices U and V with
/// U·A = R, V·R = A and U·V = V·U = identity.
///
/// `a` and `r` have [`matrix_places`], `u` has [`u_places`], `v` has [`v_places`].
#[allow(clippy::too_many_arguments)]
pub fn reduce(
    p: u32,
    n: usize,
    m: usize,
    d: usize,
    a: &[u16],
    r: &mut [u16],
    u: &mut [u16],
    v: &mut [u16],
) -> Result<Reduction, Refusal> {
    let reply = raw::reduce(p, n, m, d, a, r, u, v);
    let done = Reduction {
        rank: reply.rank,
        count: reply.count,
        rows: reply.rows,
    };
    answer(reply.number, reply.place, done)
}

/// Writes the matrix after one step of the reduction of A, and returns 1; where A is in weak Popov form, writes A
/// itself and returns 0.
///
/// `a` and `r` have [`matrix_places`].
pub fn step(p: u32, n: usize, m: usize, d: usize, a: &[u16], r: &mut [u16]) -> Result<u64, Refusal> {
    let reply = raw::step(p, n, m, d, a, r);
    answer(reply.number, reply.place, reply.count)
}

/// Writes P, the Popov form of A, into `r`, and the matrices U and V with U·A = P, V·P = A and U·V = V·U = identity.
/// Two matrices of the same p, n, m and d have equal Popov forms exactly when a polynomial matrix with a polynomial
/// inverse, multiplied from the left, turns the one into the other.
///
/// The buffers are those of [`reduce`].
#[allow(clippy::too_many_arguments)]
pub fn popov(
    p: u32,
    n: usize,
    m: usize,
    d: usize,
    a: &[u16],
    r: &mut [u16],
    u: &mut [u16],
    v: &mut [u16],
) -> Result<Popov, Refusal> {
    let reply = raw::popov(p, n, m, d, a, r, u, v);
    let done = Popov {
        rank: reply.rank,
        first: reply.first,
        second: reply.second,
    };
    answer(reply.number, reply.place, done)
}

/// Writes the determinant of A, which has to be square, constant term first.
///
/// `a` has [`matrix_places`], `r` has [`determinant_places`].
pub fn determinant(p: u32, n: usize, m: usize, d: usize, a: &[u16], r: &mut [u16]) -> Result<(), Refusal> {
    let reply = raw::determinant(p, n, m, d, a, r);
    answer(reply.number, reply.place, ())
}
