//! The examples of the paper, W1 to W12, and the matrix of the report's
//! Figure 1. With the feature `proved` the proved program is asked for each
//! matrix too.

use second::check;
use second::det;
use second::matrix::Matrix;
use second::popov::{self, Popov};
use second::reduce::{self, Reduction};
use second::refuse::{self, Call, Refusal, Service, SERVICES};

/// A matrix from its rows, each cell a list of coefficients, constant term
/// first.
fn matrix(rows: &[&[&[u16]]]) -> Matrix {
    let cells = rows
        .iter()
        .flat_map(|row| row.iter())
        .map(|cell| second::poly::from_places(cell))
        .collect();
    Matrix::from_cells(rows.len(), rows[0].len(), cells)
}

fn reduction(p: u64, d: usize, a: &Matrix) -> Reduction {
    let done = reduce::reduce(p, a);
    assert!(check::check_reduction(p, d, a, &done).is_empty());
    assert!(check::check_single_steps(p, a, &done).is_empty());
    proved_program_agrees(Service::Reduction, p, d, a);
    proved_program_agrees(Service::SingleStep, p, d, a);
    done
}

fn popov_form(p: u64, d: usize, a: &Matrix) -> Popov {
    let done = popov::popov_form(p, a);
    assert!(check::check_popov(p, d, a, &done).is_empty());
    proved_program_agrees(Service::PopovForm, p, d, a);
    done
}

fn determinant(p: u64, d: usize, a: &Matrix) -> Vec<u16> {
    proved_program_agrees(Service::Determinant, p, d, a);
    det::determinant_places(p, d, a)
}

#[cfg(feature = "proved")]
fn proved_program_agrees(service: Service, p: u64, d: usize, a: &Matrix) {
    let label = "an example of the papers";
    assert!(second::proved::matrix_agrees(label, service, p, d, a));
}

#[cfg(not(feature = "proved"))]
fn proved_program_agrees(_: Service, _: u64, _: usize, _: &Matrix) {}

/// A call whose buffers are as the table says, where it says anything, and whose
/// coefficients are 0.
fn call(service: Service, p: u32, n: u32, m: u32, d: u32) -> Call {
    let inside = n <= 8 && m <= 8 && d <= 63;
    let (rows, columns, limit) = if inside { (n, m, d) } else { (1, 1, 0) };
    let zero = Matrix::zero(rows as usize, columns as usize);
    let call = Call::of_matrix(service, p as u64, limit as usize, &zero);
    Call { n, m, d, ..call }
}

fn refusal(service: Service, p: u32, n: u32, m: u32, d: u32) -> Option<Refusal> {
    refuse::refusal(&call(service, p, n, m, d))
}

fn number(number: u32, place: u64) -> Option<Refusal> {
    Some(Refusal::new(number, place))
}

#[test]
fn w1() {
    let places = [1, 0, 0, 0, 1, 0, 0, 1, 0, 1, 0, 1];
    let a = Matrix::from_places(2, 2, 3, &places);
    let done = reduction(7, 2, &a);
    assert_eq!(done.r, Matrix::identity(2));
    assert_eq!(done.rank, 2);
    assert_eq!(done.count, 2);
    assert_eq!(done.row_list, [1, 2]);
    assert_eq!(done.u, matrix(&[&[&[1, 0, 1], &[0, 6]], &[&[0, 6], &[1]]]));
    assert_eq!(done.v, a);
    assert_eq!(determinant(7, 2, &a), [1, 0, 0, 0, 0]);
    // The buffers, every place of them.
    assert_eq!(done.r.to_places(3), [1, 0, 0, 0, 0, 0, 0, 0, 0, 1, 0, 0]);
    assert_eq!(
        done.u.to_places(6),
        [1, 0, 1, 0, 0, 0, 0, 6, 0, 0, 0, 0, 0, 6, 0, 0, 0, 0, 1, 0, 0, 0, 0, 0]
    );
    assert_eq!(done.v.to_places(3), places);
}

#[test]
fn w2() {
    let a = matrix(&[&[&[0, 1], &[1]], &[&[0, 0, 1], &[0, 1]]]);
    let done = reduction(5, 2, &a);
    assert_eq!(done.r, matrix(&[&[&[0, 1], &[1]], &[&[], &[]]]));
    assert_eq!(done.rank, 1);
    assert_eq!(done.count, 1);
    assert_eq!(done.row_list, [1]);
    assert_eq!(determinant(5, 2, &a), [0; 5]);
}

#[test]
fn w3() {
    let a = matrix(&[&[&[2], &[]], &[&[0, 3], &[0, 0, 1]]]);
    let done = popov_form(7, 2, &a);
    assert_eq!(done.first_count, 0);
    assert_eq!(done.second_count, 1);
    assert_eq!(done.p, matrix(&[&[&[1], &[]], &[&[], &[0, 0, 1]]]));
}

#[test]
fn w4() {
    let a = matrix(&[&[&[], &[1]], &[&[1], &[1]]]);
    let done = reduction(2, 0, &a);
    assert_eq!(done.r, matrix(&[&[&[], &[1]], &[&[1], &[]]]));
    assert_eq!(done.count, 1);
    assert_eq!(popov_form(2, 0, &a).p, Matrix::identity(2));
}

#[test]
fn w5() {
    for p in [2, 3, 7, 929, 65_521] {
        let a = Matrix::zero(1, 1);
        let done = reduction(p, 0, &a);
        assert_eq!(done.rank, 0);
        assert_eq!(done.count, 0);
        assert!(done.row_list.is_empty());
        assert_eq!(done.u, Matrix::identity(1));
        assert_eq!(done.v, Matrix::identity(1));
        assert_eq!(determinant(p, 0, &a), [0]);
        assert_eq!(popov_form(p, 0, &a).second_count, 0);
    }
}

#[test]
fn w6() {
    let a = matrix(&[&[&[0, 1]], &[&[0, 1]]]);
    let done = reduction(3, 1, &a);
    assert_eq!(done.r, matrix(&[&[&[0, 1]], &[&[]]]));
    assert_eq!(done.u, matrix(&[&[&[1], &[]], &[&[2], &[1]]]));
    assert_eq!(done.v, matrix(&[&[&[1], &[]], &[&[1], &[1]]]));
}

#[test]
fn w7() {
    let a = matrix(&[&[&[0, 1], &[0, 1]]]);
    assert_eq!(reduce::pivot(&a, 0).index, 2);
    assert_eq!(reduce::pivot(&a, 0).degree, 1);
}

#[test]
fn w8() {
    let a = matrix(&[&[&[0, 1], &[2]], &[&[3], &[0, 1]]]);
    assert_eq!(determinant(5, 1, &a), [4, 0, 1]);
}

#[test]
fn w9() {
    for service in SERVICES {
        assert_eq!(refusal(service, 9, 1, 1, 0), number(1, 0));
        assert_eq!(refusal(service, 1, 1, 1, 0), number(1, 0));
        assert_eq!(refusal(service, 65_537, 1, 1, 0), number(1, 0));
        assert_eq!(refusal(service, 65_521, 1, 1, 0), None);
    }
}

#[test]
fn w10() {
    for service in SERVICES {
        assert_eq!(refusal(service, 7, 9, 8, 0), number(2, 0));
        assert_eq!(refusal(service, 7, 8, 9, 0), number(2, 0));
        assert_eq!(refusal(service, 7, 8, 8, 0), None);
    }
}

#[test]
fn w11() {
    for service in SERVICES {
        assert_eq!(refusal(service, 7, 1, 1, 64), number(3, 0));
        assert_eq!(refusal(service, 7, 1, 1, 63), None);
    }
}

#[test]
fn w12() {
    for service in SERVICES {
        let mut call = call(service, 7, 2, 2, 1);
        call.input.fill(6);
        assert_eq!(refuse::refusal(&call), None);
        call.input[3] = 7;
        call.input[5] = 7;
        assert_eq!(refuse::refusal(&call), number(6, 3));
    }
}

#[test]
fn number_4_is_of_the_determinant_alone() {
    assert_eq!(refusal(Service::Determinant, 7, 2, 3, 1), number(4, 0));
    assert_eq!(refusal(Service::Reduction, 7, 2, 3, 1), None);
    assert_eq!(refusal(Service::SingleStep, 7, 2, 3, 1), None);
    assert_eq!(refusal(Service::PopovForm, 7, 2, 3, 1), None);
}

#[test]
fn report_figure_1() {
    let a = matrix(&[
        &[&[5, 3, 4], &[4, 3, 4], &[1, 0, 6]],
        &[&[6, 3], &[5, 3], &[3, 1]],
        &[&[2, 4, 6], &[0, 0, 6], &[0, 1, 2]],
    ]);
    let printed = matrix(&[
        &[&[1], &[3, 6], &[6]],
        &[&[], &[], &[]],
        &[&[2], &[5], &[3]],
    ]);
    let done = reduction(7, 2, &a);
    assert_eq!(done.rank, 2);
    assert!(det::determinant(7, &a).is_empty());
    assert!(check::is_weak_popov(&printed));
    // The weak form is not unique; the Popov form is.
    assert_eq!(popov_form(7, 2, &a).p, popov_form(7, 2, &printed).p);
}

#[test]
fn report_example_1() {
    // The simple transformation of the first row on the second, over Z/7.
    let m = matrix(&[
        &[&[1], &[0, 0, 1], &[0, 1]],
        &[&[0, 3], &[0, 1, 0, 2], &[0, 0, 0, 1]],
    ]);
    let mut n = m.clone();
    n.subtract_row_multiple(7, 1, 2, 1, 0);
    assert_eq!(reduce::pivot(&m, 0).index, 2);
    assert_eq!(
        n.chosen_rows(&[1]),
        matrix(&[&[&[0, 1], &[0, 1], &[0, 0, 5, 1]]])
    );
}

#[test]
fn printed_errors_that_look_right() {
    // A constant row is not matched with a zero row.
    let a = matrix(&[&[&[], &[]], &[&[3], &[]]]);
    assert_eq!(reduction(7, 0, &a).count, 0);
    // The row of greater degree changes, wherever it stands.
    let a = matrix(&[&[&[0, 0, 1]], &[&[1]]]);
    let done = reduction(7, 2, &a);
    assert_eq!(done.r, matrix(&[&[&[]], &[&[1]]]));
    assert_eq!(done.row_list, [2]);
}
