//! Polynomials over the residues modulo p.
//!
//! A polynomial is the list of its coefficients, constant term first. In this
//! program the list ends with a coefficient that is not zero, and the zero
//! polynomial is the empty list; so two polynomials are equal just if their
//! lists are. Nothing is ever cut at the low end. The buffers of the paper,
//! where all places are present, are read and written by `from_places` and
//! `to_places`.

use crate::field;

pub type Poly = Vec<u64>;

/// The degree, which is -1 for the zero polynomial.
pub fn degree(a: &Poly) -> isize {
    a.len() as isize - 1
}

/// The coefficient of x^e, 0 above the degree.
pub fn coefficient(a: &Poly, e: usize) -> u64 {
    a.get(e).copied().unwrap_or(0)
}

/// The coefficient at the degree, 0 for the zero polynomial.
pub fn leading(a: &Poly) -> u64 {
    a.last().copied().unwrap_or(0)
}

/// Takes the zeros off the high end.
fn without_high_zeros(mut a: Poly) -> Poly {
    cut_high_zeros(&mut a);
    a
}

fn cut_high_zeros(a: &mut Poly) {
    while a.last() == Some(&0) {
        a.pop();
    }
}

/// Reads a polynomial from its places in a buffer.
pub fn from_places(places: &[u16]) -> Poly {
    without_high_zeros(places.iter().map(|&c| c as u64).collect())
}

/// Writes a polynomial to its places in a buffer, zeros above the degree.
/// The places must be enough.
pub fn to_places(a: &Poly, places: &mut [u16]) {
    assert!(a.len() <= places.len(), "a degree above the degree limit");
    for (e, place) in places.iter_mut().enumerate() {
        *place = coefficient(a, e) as u16;
    }
}

pub fn sum(p: u64, a: &Poly, b: &Poly) -> Poly {
    let places = a.len().max(b.len());
    without_high_zeros(
        (0..places)
            .map(|e| field::sum(p, coefficient(a, e), coefficient(b, e)))
            .collect(),
    )
}

pub fn difference(p: u64, a: &Poly, b: &Poly) -> Poly {
    let places = a.len().max(b.len());
    without_high_zeros(
        (0..places)
            .map(|e| field::difference(p, coefficient(a, e), coefficient(b, e)))
            .collect(),
    )
}

/// a times x^e.
pub fn shift(a: &Poly, e: usize) -> Poly {
    if a.is_empty() {
        return Vec::new();
    }
    let mut result = vec![0; e];
    result.extend(a);
    result
}

/// a times the residue c.
pub fn scaled(p: u64, c: u64, a: &Poly) -> Poly {
    without_high_zeros(a.iter().map(|&t| field::product(p, c, t)).collect())
}

pub fn product(p: u64, a: &Poly, b: &Poly) -> Poly {
    sum_of_products(p, [(a, b)])
}

/// The sum of the products of pairs. The remainders are taken once at the end;
/// see `field` for why the sums fit.
pub fn sum_of_products<'a>(p: u64, pairs: impl IntoIterator<Item = (&'a Poly, &'a Poly)>) -> Poly {
    let mut result: Poly = Vec::new();
    for (a, b) in pairs {
        if a.is_empty() || b.is_empty() {
            continue;
        }
        let places = a.len() + b.len() - 1;
        if result.len() < places {
            result.resize(places, 0);
        }
        for (i, &s) in a.iter().enumerate() {
            for (place, &t) in result[i..].iter_mut().zip(b) {
                *place += s * t;
            }
        }
    }
    for place in &mut result {
        *place %= p;
    }
    without_high_zeros(result)
}

/// Adds c·x^e times the source to the target.
pub fn add_multiple(p: u64, target: &mut Poly, c: u64, e: usize, source: &Poly) {
    if source.is_empty() {
        return;
    }
    if target.len() < source.len() + e {
        target.resize(source.len() + e, 0);
    }
    for (place, &s) in target[e..].iter_mut().zip(source) {
        *place = (*place + c * s) % p;
    }
    cut_high_zeros(target);
}

/// The value of the polynomial where x is the given residue.
pub fn value(p: u64, a: &Poly, x: u64) -> u64 {
    a.iter().rev().fold(0, |v, &c| (v * x + c) % p)
}

#[cfg(test)]
mod tests {
    use super::*;

    #[test]
    fn degrees() {
        assert_eq!(degree(&vec![]), -1);
        assert_eq!(degree(&from_places(&[0, 0, 0])), -1);
        assert_eq!(degree(&from_places(&[4, 0, 0])), 0);
        assert_eq!(degree(&from_places(&[0, 0, 1, 0])), 2);
    }

    #[test]
    fn low_zeros_stay() {
        let a = from_places(&[0, 0, 3, 0]);
        assert_eq!(a, [0, 0, 3]);
        let mut places = [9; 5];
        to_places(&a, &mut places);
        assert_eq!(places, [0, 0, 3, 0, 0]);
    }

    #[test]
    fn sums_and_products() {
        let a = vec![1, 2, 3];
        let b = vec![6, 5, 4];
        assert_eq!(sum(7, &a, &b), []);
        assert_eq!(difference(7, &a, &a), []);
        assert_eq!(difference(7, &vec![], &a), [6, 5, 4]);
        // (1 + x)(1 - x) = 1 - x^2
        assert_eq!(product(7, &vec![1, 1], &vec![1, 6]), [1, 0, 6]);
        assert_eq!(product(7, &vec![], &a), []);
        assert_eq!(shift(&a, 2), [0, 0, 1, 2, 3]);
        assert_eq!(shift(&vec![], 2), []);
        assert_eq!(scaled(7, 0, &a), []);
    }

    #[test]
    fn multiples_added_in_place() {
        let mut a = vec![1, 2];
        add_multiple(7, &mut a, 3, 2, &vec![1, 1]);
        assert_eq!(a, [1, 2, 3, 3]);
        add_multiple(7, &mut a, 4, 2, &vec![1, 1]);
        assert_eq!(a, [1, 2]);
        add_multiple(7, &mut a, 4, 2, &vec![]);
        assert_eq!(a, [1, 2]);
    }

    #[test]
    fn values() {
        assert_eq!(value(7, &vec![1, 2, 3], 2), 17 % 7);
        assert_eq!(value(7, &vec![], 2), 0);
    }
}
