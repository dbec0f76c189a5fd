//! Residues modulo a prime p, kept as numbers from 0 to p - 1.
//!
//! The largest modulus is 65,521, so a product of two residues stays below
//! 2^32 and a sum of fewer than 2^32 such products stays below 2^64.

/// The largest modulus the paper allows.
pub const LARGEST_MODULUS: u64 = 65_521;

/// Whether p is a prime, by trial division.
pub fn is_prime(p: u64) -> bool {
    if p < 2 {
        return false;
    }
    let mut divisor = 2;
    while divisor * divisor <= p {
        if p % divisor == 0 {
            return false;
        }
        divisor += 1;
    }
    true
}

pub fn sum(p: u64, a: u64, b: u64) -> u64 {
    (a + b) % p
}

pub fn negative(p: u64, a: u64) -> u64 {
    (p - a) % p
}

pub fn difference(p: u64, a: u64, b: u64) -> u64 {
    (a + p - b) % p
}

pub fn product(p: u64, a: u64, b: u64) -> u64 {
    a * b % p
}

pub fn power(p: u64, a: u64, exponent: u64) -> u64 {
    let mut result = 1 % p;
    let mut square = a % p;
    let mut rest = exponent;
    while rest > 0 {
        if rest % 2 == 1 {
            result = product(p, result, square);
        }
        square = product(p, square, square);
        rest /= 2;
    }
    result
}

/// The inverse of a residue that is not zero, by Fermat: a^(p-2).
pub fn inverse(p: u64, a: u64) -> u64 {
    assert!(a % p != 0, "zero has no inverse");
    power(p, a, p - 2)
}

/// a divided by b, for b not zero.
pub fn quotient(p: u64, a: u64, b: u64) -> u64 {
    product(p, a, inverse(p, b))
}

#[cfg(test)]
mod tests {
    use super::*;

    #[test]
    fn primes_by_trial_division() {
        let small: Vec<u64> = (0..30).filter(|&p| is_prime(p)).collect();
        assert_eq!(small, [2, 3, 5, 7, 11, 13, 17, 19, 23, 29]);
        assert!(is_prime(929));
        assert!(is_prime(65_519));
        assert!(is_prime(65_521));
        assert!(!is_prime(65_535));
        assert!(is_prime(65_537));
    }

    #[test]
    fn primes_by_a_sieve() {
        let limit = 70_000;
        let mut prime = vec![true; limit];
        prime[0] = false;
        prime[1] = false;
        for i in 2..limit {
            if prime[i] {
                for multiple in (2 * i..limit).step_by(i) {
                    prime[multiple] = false;
                }
            }
        }
        for (number, &expected) in prime.iter().enumerate() {
            assert_eq!(is_prime(number as u64), expected, "{number}");
        }
    }

    #[test]
    fn every_residue_but_zero_has_its_inverse() {
        for p in [2, 3, 5, 7, 929] {
            for a in 1..p {
                assert_eq!(product(p, a, inverse(p, a)), 1);
            }
        }
        for a in [1, 2, 255, 32_768, 65_519, 65_520] {
            assert_eq!(product(65_521, a, inverse(65_521, a)), 1);
        }
    }
}
