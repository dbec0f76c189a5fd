//! The weak Popov form: pivots, the pair rule, the step, the whole reduction
//! and the single step. Follows "The form" and "The step" of the paper.

use crate::field;
use crate::matrix::Matrix;
use crate::poly;

/// The pivot of a row: the pivot index I, which is its column counted from 1,
/// and the pivot degree D. A zero row has I = 0 and D = -1.
#[derive(Clone, Copy, PartialEq, Eq, Debug)]
pub struct Pivot {
    pub index: usize,
    pub degree: isize,
}

impl Pivot {
    pub fn of_zero_row(self) -> bool {
        self.index == 0
    }

    /// The pivot's column counted from 0, for a row that is not zero.
    pub fn column(self) -> usize {
        self.index - 1
    }
}

/// The rightmost entry of greatest degree.
pub fn pivot(a: &Matrix, row: usize) -> Pivot {
    let mut found = Pivot {
        index: 0,
        degree: -1,
    };
    for column in 0..a.columns {
        let entry = a.cell(row, column);
        if !entry.is_empty() && poly::degree(entry) >= found.degree {
            found = Pivot {
                index: column + 1,
                degree: poly::degree(entry),
            };
        }
    }
    found
}

pub fn pivots(a: &Matrix) -> Vec<Pivot> {
    (0..a.rows).map(|row| pivot(a, row)).collect()
}

/// The leading coefficient of a row's pivot.
pub fn pivot_leading(a: &Matrix, row: usize) -> u64 {
    poly::leading(a.cell(row, pivot(a, row).column()))
}

/// The pair rule: the lowest row a for which a later row has the same pivot
/// index, not 0, and the lowest such later row b. (The lowest row is the one of
/// smallest number.)
pub fn pair(pivots: &[Pivot]) -> Option<(usize, usize)> {
    for a in 0..pivots.len() {
        if pivots[a].of_zero_row() {
            continue;
        }
        for b in a + 1..pivots.len() {
            if pivots[b].index == pivots[a].index {
                return Some((a, b));
            }
        }
    }
    None
}

/// Weak Popov form: no two non-zero rows have the same pivot index.
pub fn is_weak_popov(a: &Matrix) -> bool {
    pair(&pivots(a)).is_none()
}

/// A step: c·x^e times row k is subtracted from row l.
#[derive(Clone, Copy, PartialEq, Eq, Debug)]
pub struct Step {
    pub k: usize,
    pub l: usize,
    pub c: u64,
    pub e: usize,
}

/// The step that the paper asks for next, none where the form is reached.
pub fn next_step(p: u64, r: &Matrix) -> Option<Step> {
    let pivots = pivots(r);
    let (a, b) = pair(&pivots)?;
    // l is the one of greater pivot degree; on equal degrees l is b.
    let (k, l) = if pivots[a].degree > pivots[b].degree {
        (b, a)
    } else {
        (a, b)
    };
    Some(Step {
        k,
        l,
        c: field::quotient(p, pivot_leading(r, l), pivot_leading(r, k)),
        e: (pivots[l].degree - pivots[k].degree) as usize,
    })
}

/// What the reduction returns.
#[derive(Clone, PartialEq, Eq, Debug)]
pub struct Reduction {
    pub r: Matrix,
    pub u: Matrix,
    pub v: Matrix,
    pub count: u64,
    pub rank: usize,
    /// The numbers, counted from 1, of the rows that are not zero in R.
    pub row_list: Vec<usize>,
}

/// The whole reduction: the step repeated until none applies. U·A = R and
/// V·R = A hold from the start and after every step.
pub fn reduce(p: u64, a: &Matrix) -> Reduction {
    let mut r = a.clone();
    let mut u = Matrix::identity(a.rows);
    let mut v = Matrix::identity(a.rows);
    let mut count = 0;
    while let Some(Step { k, l, c, e }) = next_step(p, &r) {
        r.subtract_row_multiple(p, l, c, e, k);
        u.subtract_row_multiple(p, l, c, e, k);
        // The inverse moves by columns.
        v.add_column_multiple(p, k, c, e, l);
        count += 1;
    }
    let row_list = row_list(&r);
    Reduction {
        rank: row_list.len(),
        r,
        u,
        v,
        count,
        row_list,
    }
}

/// The numbers, counted from 1, of the rows that are not zero.
pub fn row_list(r: &Matrix) -> Vec<usize> {
    (0..r.rows)
        .filter(|&row| !r.row_is_zero(row))
        .map(|row| row + 1)
        .collect()
}

/// The single step: the matrix after one step and the count 1, or an equal
/// copy and the count 0 where the form is reached.
pub fn single_step(p: u64, a: &Matrix) -> (Matrix, u64) {
    let mut r = a.clone();
    match next_step(p, a) {
        Some(Step { k, l, c, e }) => {
            r.subtract_row_multiple(p, l, c, e, k);
            (r, 1)
        }
        None => (r, 0),
    }
}

/// The state: the sum of D·m + I over the non-zero rows.
pub fn state(a: &Matrix) -> u64 {
    pivots(a)
        .iter()
        .filter(|pivot| !pivot.of_zero_row())
        .map(|pivot| pivot.degree as u64 * a.columns as u64 + pivot.index as u64)
        .sum()
}

#[cfg(test)]
mod tests {
    use super::*;

    fn pivot_of(index: usize, degree: isize) -> Pivot {
        Pivot { index, degree }
    }

    #[test]
    fn pivots_of_rows() {
        // (1, x^2, x), (0, 0, 0), (3, 0, 0), (x, x, 1)
        let a = Matrix::from_cells(
            4,
            3,
            vec![
                vec![1],
                vec![0, 0, 1],
                vec![0, 1],
                vec![],
                vec![],
                vec![],
                vec![3],
                vec![],
                vec![],
                vec![0, 1],
                vec![0, 1],
                vec![1],
            ],
        );
        assert_eq!(
            pivots(&a),
            [
                pivot_of(2, 2),
                pivot_of(0, -1),
                pivot_of(1, 0),
                pivot_of(2, 1)
            ]
        );
        assert_eq!(state(&a), 8 + 1 + 5);
    }

    #[test]
    fn pair_rule() {
        let list = |indices: &[usize]| -> Vec<Pivot> {
            indices
                .iter()
                .map(|&i| pivot_of(i, if i == 0 { -1 } else { 4 }))
                .collect()
        };
        assert_eq!(pair(&list(&[1, 2, 3])), None);
        assert_eq!(pair(&list(&[0, 0, 1])), None);
        assert_eq!(pair(&list(&[1, 2, 2, 1])), Some((0, 3)));
        assert_eq!(pair(&list(&[3, 2, 2, 2])), Some((1, 2)));
        assert_eq!(pair(&list(&[0, 1, 0, 1, 1])), Some((1, 3)));
    }

    #[test]
    fn equal_degrees_make_b_the_row_that_changes() {
        let a = Matrix::from_cells(2, 1, vec![vec![0, 2], vec![5, 3]]);
        let step = next_step(7, &a).unwrap();
        // 3/2 = 5 modulo 7
        assert_eq!(
            step,
            Step {
                k: 0,
                l: 1,
                c: 5,
                e: 0
            }
        );
    }
}
