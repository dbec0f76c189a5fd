//! The Popov form. Follows "Popov form" of the paper, in its order.

use crate::field;
use crate::matrix::Matrix;
use crate::poly;
use crate::reduce::{self, Pivot};

/// What the Popov form returns.
#[derive(Clone, PartialEq, Eq, Debug)]
pub struct Popov {
    pub p: Matrix,
    pub u: Matrix,
    pub v: Matrix,
    pub rank: usize,
    /// Steps of the first kind, made by the reduction.
    pub first_count: u64,
    /// Subtractions of the second kind, made here.
    pub second_count: u64,
}

pub fn popov_form(modulus: u64, a: &Matrix) -> Popov {
    let reduction = reduce::reduce(modulus, a);
    let rank = reduction.rank;

    // Put rows in ascending order. U follows by rows, V by columns.
    let order = ascending_order(&reduce::pivots(&reduction.r));
    let mut p = reduction.r.chosen_rows(&order);
    let mut u = reduction.u.chosen_rows(&order);
    let mut v = reduction.v.chosen_columns(&order);

    // Go through the non-zero rows from the top. The pivots do not change.
    let pivots = reduce::pivots(&p);
    let mut second_count = 0;
    for k in 0..rank {
        while let Some((i, e)) = greatest_excess(&p, &pivots, k) {
            let column = pivots[i].column();
            let c = field::quotient(
                modulus,
                poly::leading(p.cell(k, column)),
                poly::leading(p.cell(i, column)),
            );
            p.subtract_row_multiple(modulus, k, c, e, i);
            u.subtract_row_multiple(modulus, k, c, e, i);
            v.add_column_multiple(modulus, i, c, e, k);
            second_count += 1;
        }
    }

    // Divide each non-zero row by its pivot's leading coefficient.
    for row in 0..rank {
        let leading = reduce::pivot_leading(&p, row);
        let inverse = field::inverse(modulus, leading);
        p.scale_row(modulus, row, inverse);
        u.scale_row(modulus, row, inverse);
        v.scale_column(modulus, row, leading);
    }

    Popov {
        p,
        u,
        v,
        rank,
        first_count: reduction.count,
        second_count,
    }
}

/// The rows in ascending order: smaller pivot degree first, equal degrees by
/// smaller pivot index, zero rows last in the order they had.
pub fn ascending_order(pivots: &[Pivot]) -> Vec<usize> {
    let mut not_zero: Vec<usize> = (0..pivots.len())
        .filter(|&i| !pivots[i].of_zero_row())
        .collect();
    let zero = (0..pivots.len()).filter(|&i| pivots[i].of_zero_row());
    // This sort keeps the order of equals; in weak Popov form there are none.
    not_zero.sort_by_key(|&i| (pivots[i].degree, pivots[i].index));
    not_zero.extend(zero);
    not_zero
}

/// For each row i before row k: the degree of row k in i's pivot column, less
/// i's pivot degree. Returns the lowest row that has the greatest of these, and
/// that difference, unless it is negative or there is no earlier row.
fn greatest_excess(p: &Matrix, pivots: &[Pivot], k: usize) -> Option<(usize, usize)> {
    let mut found: Option<(usize, isize)> = None;
    for (i, pivot) in pivots.iter().enumerate().take(k) {
        let excess = poly::degree(p.cell(k, pivot.column())) - pivot.degree;
        if found.is_none_or(|(_, greatest)| excess > greatest) {
            found = Some((i, excess));
        }
    }
    match found {
        Some((i, excess)) if excess >= 0 => Some((i, excess as usize)),
        _ => None,
    }
}

#[cfg(test)]
mod tests {
    use super::*;

    #[test]
    fn order_of_rows() {
        let pivots: Vec<Pivot> = [(0, -1), (3, 2), (1, 2), (0, -1), (4, 0), (2, 5)]
            .iter()
            .map(|&(index, degree)| Pivot { index, degree })
            .collect();
        assert_eq!(ascending_order(&pivots), [4, 2, 1, 5, 0, 3]);
    }

    #[test]
    fn lowest_of_the_earlier_rows_with_the_greatest_excess() {
        // (1, 0, 0), (0, x, 0), then a row with excess in both pivot columns.
        let rows = |third: [Vec<u64>; 3]| {
            let mut cells = vec![vec![1], vec![], vec![], vec![], vec![0, 1], vec![]];
            cells.extend(third);
            Matrix::from_cells(3, 3, cells)
        };
        let next = |third: [Vec<u64>; 3]| {
            let p = rows(third);
            greatest_excess(&p, &reduce::pivots(&p), 2)
        };
        let pivot = vec![0, 0, 0, 1];
        // Excess 1 and 1, 1 and 2, 0 and none, none and none.
        assert_eq!(
            next([vec![0, 5], vec![0, 0, 5], pivot.clone()]),
            Some((0, 1))
        );
        assert_eq!(
            next([vec![0, 5], vec![0, 0, 0, 5], pivot.clone()]),
            Some((1, 2))
        );
        assert_eq!(next([vec![5], vec![5], pivot.clone()]), Some((0, 0)));
        assert_eq!(next([vec![], vec![5], pivot]), None);
    }
}
