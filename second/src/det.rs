//! The determinant, by its definition: expansion along the first row, a 1 by 1
//! matrix having its only entry.
//!
//! Every smaller matrix that arises is made of the last rows and of some of the
//! columns; it is fixed by the set of its columns. Its determinant is kept once
//! found, so that no smaller matrix is expanded twice.

use crate::field;
use crate::matrix::Matrix;
use crate::poly::{self, Poly};

/// The determinant of a square matrix.
pub fn determinant(p: u64, a: &Matrix) -> Poly {
    assert_eq!(a.rows, a.columns);
    let all_columns: Vec<usize> = (0..a.columns).collect();
    let mut kept = vec![None; 1 << a.columns];
    expansion(p, a, &all_columns, &mut kept)
}

/// The determinant in its buffer of n·d+1 places.
pub fn determinant_places(p: u64, d: usize, a: &Matrix) -> Vec<u16> {
    let mut places = vec![0; a.rows * d + 1];
    poly::to_places(&determinant(p, a), &mut places);
    places
}

/// The determinant of the matrix made of the given columns and of as many of
/// the last rows.
fn expansion(p: u64, a: &Matrix, columns: &[usize], kept: &mut [Option<Poly>]) -> Poly {
    let set: usize = columns.iter().map(|column| 1 << column).sum();
    if let Some(found) = &kept[set] {
        return found.clone();
    }
    let first_row = a.rows - columns.len();
    let result = if columns.len() == 1 {
        a.cell(first_row, columns[0]).clone()
    } else {
        let mut factors = Vec::new();
        for (place, &column) in columns.iter().enumerate() {
            let entry = a.cell(first_row, column);
            let signed_entry = if place % 2 == 0 {
                entry.clone()
            } else {
                poly::scaled(p, field::negative(p, 1), entry)
            };
            let mut others = columns.to_vec();
            others.remove(place);
            factors.push((signed_entry, expansion(p, a, &others, kept)));
        }
        poly::sum_of_products(p, factors.iter().map(|(s, t)| (s, t)))
    };
    kept[set] = Some(result.clone());
    result
}

#[cfg(test)]
mod tests {
    use super::*;

    fn constants(n: usize, entries: &[u16]) -> Matrix {
        Matrix::from_places(n, n, 1, entries)
    }

    #[test]
    fn small_determinants() {
        assert_eq!(determinant(7, &constants(1, &[5])), [5]);
        assert_eq!(determinant(7, &constants(2, &[1, 2, 3, 4])), [5]);
        assert_eq!(
            determinant(7, &constants(3, &[0, 1, 0, 0, 0, 1, 1, 0, 0])),
            [1]
        );
        assert_eq!(
            determinant(7, &constants(3, &[0, 1, 0, 1, 0, 0, 0, 0, 1])),
            [6]
        );
        assert_eq!(
            determinant(101, &constants(3, &[2, 0, 1, 3, 5, 2, 1, 4, 7])),
            [61]
        );
    }
}
