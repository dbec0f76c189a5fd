//! Checks that multiply out. They use the definitions of the forms and not the
//! way to them, and return what is wrong, one line for each fault.

use crate::det;
use crate::field;
use crate::matrix::Matrix;
use crate::poly::{self, Poly};
use crate::popov::{self, Popov};
use crate::reduce::{self, Reduction};
use crate::sample::{Pair, Sample};

pub type Faults = Vec<String>;

fn expect(faults: &mut Faults, holds: bool, what: &str) {
    if !holds {
        faults.push(what.to_string());
    }
}

/// The pivot columns, counted from 0, of the rows that are not zero, none for a
/// zero row; found from the definition: entries to the left have no greater
/// degree, entries to the right have smaller degree.
fn pivot_columns(a: &Matrix) -> Vec<Option<usize>> {
    let degree = |i, j| poly::degree(a.cell(i, j));
    (0..a.rows)
        .map(|i| {
            (0..a.columns).find(|&j| {
                degree(i, j) >= 0
                    && (0..j).all(|left| degree(i, left) <= degree(i, j))
                    && (j + 1..a.columns).all(|right| degree(i, right) < degree(i, j))
            })
        })
        .collect()
}

/// No two non-zero rows have the same pivot index.
pub fn is_weak_popov(a: &Matrix) -> bool {
    let columns: Vec<usize> = pivot_columns(a).into_iter().flatten().collect();
    (0..columns.len()).all(|i| !columns[..i].contains(&columns[i]))
}

/// Weak Popov form in ascending order, zero rows last, each pivot monic, every
/// other entry of a pivot's column of smaller degree.
pub fn is_popov(a: &Matrix) -> bool {
    let columns = pivot_columns(a);
    let rank = columns.iter().flatten().count();
    if !is_weak_popov(a) || columns[..rank].contains(&None) {
        return false;
    }
    let columns: Vec<usize> = columns.into_iter().flatten().collect();
    let degree = |i: usize, j: usize| poly::degree(a.cell(i, j));
    let ascending = (1..rank).all(|i| {
        let before = (degree(i - 1, columns[i - 1]), columns[i - 1]);
        before < (degree(i, columns[i]), columns[i])
    });
    let monic = (0..rank).all(|i| poly::leading(a.cell(i, columns[i])) == 1);
    let smaller = (0..rank).all(|l| {
        (0..a.rows)
            .filter(|&i| i != l)
            .all(|i| degree(i, columns[l]) < degree(l, columns[l]))
    });
    ascending && monic && smaller
}

/// U·A = R, V·R = A, U and V inverse to each other, and all degrees within
/// their bounds.
fn check_transforms(
    faults: &mut Faults,
    p: u64,
    d: usize,
    a: &Matrix,
    r: &Matrix,
    u: &Matrix,
    v: &Matrix,
) {
    let n = a.rows;
    let one = Matrix::identity(n);
    expect(faults, u.product(p, a) == *r, "U·A is not the result");
    expect(faults, v.product(p, r) == *a, "V times the result is not A");
    expect(faults, u.product(p, v) == one, "U·V is not the identity");
    expect(faults, v.product(p, u) == one, "V·U is not the identity");
    let (d, n) = (d as isize, n as isize);
    expect(faults, r.greatest_degree() <= d, "degree of the result");
    expect(faults, u.greatest_degree() < n * (d + 1), "degree of U");
    expect(faults, v.greatest_degree() <= d, "degree of V");
}

/// The rank against values of x: the rank of A where x is a residue is never
/// more, and is the same for some residue if there are more than rank·d of them.
fn check_rank(faults: &mut Faults, p: u64, d: usize, a: &Matrix, rank: usize) {
    expect(
        faults,
        rank <= a.rows.min(a.columns),
        "rank above min(n, m)",
    );
    let enough = (rank * d + 1) as u64;
    let mut greatest = 0;
    for x in 0..enough.min(p) {
        greatest = greatest.max(eliminate(p, values(p, a, x)).0);
        if greatest >= rank {
            break;
        }
    }
    expect(faults, greatest <= rank, "rank below that of a value");
    if p >= enough {
        expect(faults, greatest >= rank, "rank above that of every value");
    }
}

/// All checks of a reduction of A with degree limit d.
pub fn check_reduction(p: u64, d: usize, a: &Matrix, reduction: &Reduction) -> Faults {
    let mut faults = Faults::new();
    let Reduction {
        r,
        u,
        v,
        count,
        rank,
        row_list,
    } = reduction;
    check_transforms(&mut faults, p, d, a, r, u, v);
    expect(&mut faults, is_weak_popov(r), "R is not in weak Popov form");
    check_rank(&mut faults, p, d, a, *rank);

    let in_list = |i: usize| row_list.contains(&(i + 1));
    let list_right = (0..a.rows).all(|i| in_list(i) != r.row_is_zero(i))
        && row_list.len() == *rank
        && row_list.windows(2).all(|w| w[0] < w[1]);
    expect(&mut faults, list_right, "row list");
    let listed: Vec<usize> = row_list.iter().map(|number| number - 1).collect();
    let independent = reduce::reduce(p, &a.chosen_rows(&listed)).rank == *rank;
    expect(&mut faults, independent, "listed rows of A not independent");

    let drop = reduce::state(a) as i64 - reduce::state(r) as i64;
    let bound = (a.rows * rank * (d + 1)) as u64;
    expect(
        &mut faults,
        *count as i64 <= drop,
        "count above the fall of the state",
    );
    expect(&mut faults, *count <= bound, "count above n·r·(d+1)");
    faults
}

/// The single step repeated: as many steps as the count says, each with count
/// 1, lead from A to R; one more has count 0 and changes nothing.
pub fn check_single_steps(p: u64, a: &Matrix, reduction: &Reduction) -> Faults {
    let mut faults = Faults::new();
    let mut matrix = a.clone();
    for _ in 0..reduction.count {
        let (after, count) = reduce::single_step(p, &matrix);
        expect(&mut faults, count == 1, "a single step too few");
        let changed = (0..a.rows)
            .filter(|&i| matrix.chosen_rows(&[i]) != after.chosen_rows(&[i]))
            .count();
        expect(&mut faults, changed == 1, "a step changes just one row");
        expect(
            &mut faults,
            reduce::state(&after) < reduce::state(&matrix),
            "a step without a fall of the state",
        );
        matrix = after;
    }
    expect(
        &mut faults,
        reduce::single_step(p, &matrix) == (reduction.r.clone(), 0),
        "single steps do not end in R",
    );
    faults
}

/// All checks of a Popov form of A with degree limit d.
pub fn check_popov(p: u64, d: usize, a: &Matrix, popov: &Popov) -> Faults {
    let mut faults = Faults::new();
    check_transforms(&mut faults, p, d, a, &popov.p, &popov.u, &popov.v);
    expect(&mut faults, is_popov(&popov.p), "P is not in Popov form");
    check_rank(&mut faults, p, d, a, popov.rank);
    let r = popov.rank;
    let zero_rows = (0..a.rows).filter(|&i| popov.p.row_is_zero(i)).count();
    expect(&mut faults, r + zero_rows == a.rows, "rank of P");
    expect(
        &mut faults,
        popov.first_count <= (a.rows * r * (d + 1)) as u64,
        "first count above n·r·(d+1)",
    );
    let bound = if r == 0 { 0 } else { r * (r - 1) * (d + 1) };
    expect(
        &mut faults,
        popov.second_count <= bound as u64,
        "second count above r(r-1)(d+1)",
    );
    faults
}

/// The determinant against values of x, where Gaussian elimination finds it, at
/// n·d+1 residues or at all of them; and against R, which has the same one.
/// More than n·d residues settle the determinant.
pub fn check_determinant(
    p: u64,
    d: usize,
    a: &Matrix,
    reduction: &Reduction,
    determinant: &Poly,
) -> Faults {
    let mut faults = Faults::new();
    let n = a.rows;
    let most = (n * d) as isize;
    expect(
        &mut faults,
        poly::degree(determinant) <= most,
        "degree of the determinant",
    );
    let same = (0..p.min(n as u64 * d as u64 + 1))
        .all(|x| poly::value(p, determinant, x) == eliminate(p, values(p, a, x)).1);
    expect(&mut faults, same, "determinant at a value of x");
    // Every step has determinant 1. In weak Popov form without zero rows the
    // degree of the determinant is the sum of the pivot degrees.
    if reduction.rank == n {
        let sum: isize = reduce::pivots(&reduction.r).iter().map(|t| t.degree).sum();
        expect(
            &mut faults,
            poly::degree(determinant) == sum,
            "degree of the determinant against R",
        );
        expect(
            &mut faults,
            det::determinant(p, &reduction.r) == *determinant,
            "determinant of R",
        );
    } else {
        expect(&mut faults, determinant.is_empty(), "determinant not zero");
    }
    faults
}

/// Every service on a sample, with all checks above.
pub fn check_sample(sample: &Sample) -> Faults {
    let &Sample { p, d, ref a, .. } = sample;
    let reduction = reduce::reduce(p, a);
    let mut faults = check_reduction(p, d, a, &reduction);
    faults.extend(check_single_steps(p, a, &reduction));
    faults.extend(check_popov(p, d, a, &popov::popov_form(p, a)));
    if a.rows == a.columns {
        let determinant = det::determinant(p, a);
        faults.extend(check_determinant(p, d, a, &reduction, &determinant));
    }
    faults
}

/// The pair's Popov forms by this program, with the checks of `check_forms`.
pub fn check_pair(pair: &Pair) -> Faults {
    let first = popov::popov_form(pair.p, &pair.first).p;
    let second = popov::popov_form(pair.p, &pair.second).p;
    check_forms(pair, &first, &second)
}

/// The Popov forms found for the matrices of a pair are the same just if these
/// are equivalent; and the first is the one that the pair was made from, if any.
pub fn check_forms(pair: &Pair, first: &Matrix, second: &Matrix) -> Faults {
    let mut faults = Faults::new();
    expect(
        &mut faults,
        (first == second) == pair.equivalent,
        "equal Popov forms are not just those of equivalent matrices",
    );
    if let Some(form) = &pair.form {
        expect(
            &mut faults,
            first == form,
            "not the Popov form that the pair was made from",
        );
    }
    faults
}

/// The matrix of the values where x is the given residue.
fn values(p: u64, a: &Matrix, x: u64) -> Vec<Vec<u64>> {
    (0..a.rows)
        .map(|i| {
            (0..a.columns)
                .map(|j| poly::value(p, a.cell(i, j), x))
                .collect()
        })
        .collect()
}

/// Gaussian elimination over the residues: the rank, and the determinant where
/// the matrix is square.
fn eliminate(p: u64, mut rows: Vec<Vec<u64>>) -> (usize, u64) {
    let columns = rows[0].len();
    let mut rank = 0;
    let mut determinant = 1;
    for column in 0..columns {
        let Some(found) = (rank..rows.len()).find(|&i| rows[i][column] != 0) else {
            determinant = 0;
            continue;
        };
        if found != rank {
            rows.swap(found, rank);
            determinant = field::negative(p, determinant);
        }
        let pivot = rows[rank][column];
        determinant = field::product(p, determinant, pivot);
        let inverse = field::inverse(p, pivot);
        for i in rank + 1..rows.len() {
            let factor = field::product(p, rows[i][column], inverse);
            for j in column..columns {
                let part = field::product(p, factor, rows[rank][j]);
                rows[i][j] = field::difference(p, rows[i][j], part);
            }
        }
        rank += 1;
    }
    (rank, determinant)
}

#[cfg(test)]
mod tests {
    use super::*;

    /// A matrix with 2 places for each cell.
    fn matrix(n: usize, m: usize, places: &[u16]) -> Matrix {
        Matrix::from_places(n, m, 2, places)
    }

    #[test]
    fn elimination() {
        let rows = vec![vec![0, 1, 2], vec![3, 4, 5], vec![6, 0, 1]];
        // 0·4 - 1·(3 - 30) + 2·(0 - 24) = 27 - 48
        assert_eq!(eliminate(101, rows), (3, 101 - 21));
        assert_eq!(eliminate(7, vec![vec![1, 2], vec![2, 4]]), (1, 0));
    }

    #[test]
    fn forms_by_definition() {
        // (1, 0), (0, x): Popov form.
        assert!(is_popov(&matrix(2, 2, &[1, 0, 0, 0, 0, 0, 0, 1])));
        // (2, 0), (0, x): a pivot that is not monic.
        assert!(!is_popov(&matrix(2, 2, &[2, 0, 0, 0, 0, 0, 0, 1])));
        // (0, x), (1, 0): not in ascending order.
        assert!(!is_popov(&matrix(2, 2, &[0, 0, 0, 1, 1, 0, 0, 0])));
        // (1, 0), (3, x): an entry in the first pivot's column.
        let a = matrix(2, 2, &[1, 0, 0, 0, 3, 0, 0, 1]);
        assert!(!is_popov(&a));
        assert!(is_weak_popov(&a));
        // (0, 0), (1, 0): a zero row before the last.
        assert!(!is_popov(&matrix(2, 2, &[0, 0, 0, 0, 1, 0, 0, 0])));
        // (x, x), (1, 1): the same pivot column.
        assert!(!is_weak_popov(&matrix(2, 2, &[0, 1, 0, 1, 1, 0, 1, 0])));
        // (x, x), (1, 0): different pivot columns.
        assert!(is_weak_popov(&matrix(2, 2, &[0, 1, 0, 1, 1, 0, 0, 0])));
    }

    #[test]
    fn faults_are_seen() {
        let a = matrix(2, 2, &[1, 1, 2, 3, 4, 5, 6, 2]);
        let good = reduce::reduce(7, &a);
        assert_eq!(check_reduction(7, 1, &a, &good), Faults::new());
        assert!(good.count > 0);

        let mut copied = good.clone();
        copied.r = a.clone();
        assert!(!check_reduction(7, 1, &a, &copied).is_empty());
        let mut swapped = good.clone();
        swapped.v = good.u.clone();
        assert!(!check_reduction(7, 1, &a, &swapped).is_empty());
        let mut longer = good.clone();
        longer.count = 1000;
        assert_eq!(check_reduction(7, 1, &a, &longer).len(), 2);
        let mut lower = good.clone();
        lower.rank -= 1;
        assert!(!check_reduction(7, 1, &a, &lower).is_empty());
        let mut shorter = good.clone();
        shorter.count -= 1;
        assert!(!check_single_steps(7, &a, &shorter).is_empty());

        let determinant = det::determinant(7, &a);
        assert_eq!(
            check_determinant(7, 1, &a, &good, &determinant),
            Faults::new()
        );
        let other = poly::scaled(7, 6, &determinant);
        assert!(!check_determinant(7, 1, &a, &good, &other).is_empty());
    }
}
