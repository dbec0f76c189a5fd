//! The services with their replies as bindings/c/moorbesen.h declares them: every number that a call returns, in a
//! refusal too. The functions of the crate itself return the same as a `Result`.

/// The reply of [`reduce`] and of [`step`]. In a refusal all fields but the first two are 0.
#[repr(C)]
#[derive(Clone, Copy, PartialEq, Eq, Debug)]
pub struct Reply {
    /// 0 if the call is done, else the number of the [`Refusal`](crate::Refusal).
    pub number: usize,
    /// The place of the refusal, 0 if the call is done.
    pub place: usize,
    /// The rank of A: the number of rows of R that are not zero. Of the single step 0.
    pub rank: usize,
    /// The number of steps made: of the single step 1, or 0 where no step applies.
    pub count: u64,
    /// The rows of A that are listed as independent, as [`Reduction::rows`](crate::Reduction::rows) has them. Of the
    /// single step 0.
    pub rows: usize,
}

/// The reply of [`popov`]. In a refusal all fields but the first two are 0.
#[repr(C)]
#[derive(Clone, Copy, PartialEq, Eq, Debug)]
pub struct PopovReply {
    /// As in [`Reply`].
    pub number: usize,
    /// As in [`Reply`].
    pub place: usize,
    /// The rank of A: the number of rows of P that are not zero.
    pub rank: usize,
    /// The number of steps of the first kind, those that lead to weak Popov form.
    pub first: u64,
    /// The number of steps of the second kind, those that lower the degrees beside the pivots.
    pub second: u64,
}

/// The reply of [`determinant`].
#[repr(C)]
#[derive(Clone, Copy, PartialEq, Eq, Debug)]
pub struct DeterminantReply {
    /// As in [`Reply`].
    pub number: usize,
    /// As in [`Reply`].
    pub place: usize,
}

extern "C" {
    fn moorbesen_reduce(
        p: u32,
        n: usize,
        m: usize,
        d: usize,
        a: *const u16,
        a_len: usize,
        r: *mut u16,
        r_len: usize,
        u: *mut u16,
        u_len: usize,
        v: *mut u16,
        v_len: usize,
    ) -> Reply;

    fn moorbesen_step(
        p: u32,
        n: usize,
        m: usize,
        d: usize,
        a: *const u16,
        a_len: usize,
        r: *mut u16,
        r_len: usize,
    ) -> Reply;

    fn moorbesen_popov(
        p: u32,
        n: usize,
        m: usize,
        d: usize,
        a: *const u16,
        a_len: usize,
        r: *mut u16,
        r_len: usize,
        u: *mut u16,
        u_len: usize,
        v: *mut u16,
        v_len: usize,
    ) -> PopovReply;

    fn moorbesen_determinant(
        p: u32,
        n: usize,
        m: usize,
        d: usize,
        a: *const u16,
        a_len: usize,
        r: *mut u16,
        r_len: usize,
    ) -> DeterminantReply;
}

/// A slice as C takes it. In each call below every pointer is good for its length, and no slice that is written
/// overlaps another, for the slices are borrowed until the call ends.
fn lent(slice: &mut [u16]) -> (*mut u16, usize) {
    (slice.as_mut_ptr(), slice.len())
}

/// As [`reduce`](crate::reduce).
#[allow(clippy::too_many_arguments)]
pub fn reduce(p: u32, n: usize, m: usize, d: usize, a: &[u16], r: &mut [u16], u: &mut [u16], v: &mut [u16]) -> Reply {
    let ((r, r_len), (u, u_len), (v, v_len)) = (lent(r), lent(u), lent(v));
    unsafe { moorbesen_reduce(p, n, m, d, a.as_ptr(), a.len(), r, r_len, u, u_len, v, v_len) }
}

/// As [`step`](crate::step).
pub fn step(p: u32, n: usize, m: usize, d: usize, a: &[u16], r: &mut [u16]) -> Reply {
    let (r, r_len) = lent(r);
    unsafe { moorbesen_step(p, n, m, d, a.as_ptr(), a.len(), r, r_len) }
}

/// As [`popov`](crate::popov).
#[allow(clippy::too_many_arguments)]
pub fn popov(
    p: u32,
    n: usize,
    m: usize,
    d: usize,
    a: &[u16],
    r: &mut [u16],
    u: &mut [u16],
    v: &mut [u16],
) -> PopovReply {
    let ((r, r_len), (u, u_len), (v, v_len)) = (lent(r), lent(u), lent(v));
    unsafe { moorbesen_popov(p, n, m, d, a.as_ptr(), a.len(), r, r_len, u, u_len, v, v_len) }
}

/// As [`determinant`](crate::determinant).
pub fn determinant(p: u32, n: usize, m: usize, d: usize, a: &[u16], r: &mut [u16]) -> DeterminantReply {
    let (r, r_len) = lent(r);
    unsafe { moorbesen_determinant(p, n, m, d, a.as_ptr(), a.len(), r, r_len) }
}
