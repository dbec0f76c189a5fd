//! Refusals. Follows "Numbers and layouts" and "Refusal numbers" of the paper.

use crate::field;
use crate::matrix::Matrix;

#[derive(Clone, Copy, PartialEq, Eq, Debug)]
pub enum Service {
    Reduction,
    SingleStep,
    PopovForm,
    Determinant,
}

pub const SERVICES: [Service; 4] = [
    Service::Reduction,
    Service::SingleStep,
    Service::PopovForm,
    Service::Determinant,
];

impl Service {
    /// The name by which it is asked for.
    pub fn name(self) -> &'static str {
        match self {
            Service::Reduction => "reduce",
            Service::SingleStep => "step",
            Service::PopovForm => "popov",
            Service::Determinant => "determinant",
        }
    }
}

/// A call of a service: its numbers, its input, and the lengths of the buffers
/// after the input, in their order.
#[derive(Clone, Debug)]
pub struct Call {
    pub service: Service,
    pub p: u32,
    pub n: u32,
    pub m: u32,
    pub d: u32,
    pub input: Vec<u16>,
    pub lengths: Vec<usize>,
}

impl Call {
    /// The call for a matrix, with all buffers as the table says.
    pub fn of_matrix(service: Service, p: u64, d: usize, a: &Matrix) -> Call {
        Call {
            service,
            p: p as u32,
            n: a.rows as u32,
            m: a.columns as u32,
            d: d as u32,
            input: a.to_places(d + 1),
            lengths: places(service, a.rows, a.columns, d)[1..].to_vec(),
        }
    }

    /// The modulus, the degree limit and the matrix of a call that is not
    /// refused.
    pub fn matrix(&self) -> (u64, usize, Matrix) {
        let (n, m, d) = (self.n as usize, self.m as usize, self.d as usize);
        let a = Matrix::from_places(n, m, d + 1, &self.input);
        (self.p as u64, d, a)
    }
}

/// A refusal number and the place returned with it.
#[derive(Clone, Copy, PartialEq, Eq, Debug)]
pub struct Refusal {
    pub number: u32,
    pub place: u64,
}

impl Refusal {
    pub fn new(number: u32, place: u64) -> Refusal {
        Refusal { number, place }
    }
}

/// The number of places that the table gives to each buffer of the service, in
/// the order input, result, U, V. For n, m and d within their bounds only.
pub fn places(service: Service, n: usize, m: usize, d: usize) -> Vec<usize> {
    let matrix = n * m * (d + 1);
    let u = n * n * n * (d + 1);
    let v = n * n * (d + 1);
    match service {
        Service::Reduction | Service::PopovForm => vec![matrix, matrix, u, v],
        Service::SingleStep => vec![matrix, matrix],
        Service::Determinant => vec![matrix, n * d + 1],
    }
}

/// The refusal of a call, none if the call is to be done. The checks run in the
/// table's order and the first that applies is the answer.
pub fn refusal(call: &Call) -> Option<Refusal> {
    let &Call { p, n, m, d, .. } = call;
    if let Some(refusal) = of_numbers(p, n, m, d) {
        return Some(refusal);
    }
    if call.service == Service::Determinant && n != m {
        return Some(Refusal::new(4, 0));
    }
    let wanted = places(call.service, n as usize, m as usize, d as usize);
    let mut given = vec![call.input.len()];
    given.extend(&call.lengths);
    assert_eq!(given.len(), wanted.len(), "a buffer too few or too many");
    for buffer in 0..wanted.len() {
        if given[buffer] != wanted[buffer] {
            return Some(Refusal::new(5, buffer as u64 + 1));
        }
    }
    of_coefficients(p, &call.input)
}

/// Refusals 1, 2 and 3.
pub fn of_numbers(p: u32, n: u32, m: u32, d: u32) -> Option<Refusal> {
    if p as u64 > field::LARGEST_MODULUS || !field::is_prime(p as u64) {
        return Some(Refusal::new(1, 0));
    }
    if !(1..=8).contains(&n) || !(1..=8).contains(&m) {
        return Some(Refusal::new(2, 0));
    }
    if d > 63 {
        return Some(Refusal::new(3, 0));
    }
    None
}

/// Refusal 6.
pub fn of_coefficients(p: u32, input: &[u16]) -> Option<Refusal> {
    let index = input.iter().position(|&c| c as u32 >= p)?;
    Some(Refusal::new(6, index as u64))
}
