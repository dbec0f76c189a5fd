//! Reduces the matrix of W1 (paper 01), makes one step of the reduction, and works out the Popov form and the
//! determinant. bindings/c/example.c prints the same text.

use moorbesen::{determinant, determinant_places, matrix_places, popov, reduce, step, u_places, v_places, Refusal};

const P: u32 = 7;
const N: usize = 2;
const M: usize = 2;
const D: usize = 2;

/// The rows (1, x) and (x, 1 + x²).
const A: [u16; matrix_places(N, M, D)] = [1, 0, 0, 0, 1, 0, 0, 1, 0, 1, 0, 1];

fn print_polynomial(places: &[u16]) {
    for coefficient in places {
        print!(" {coefficient}");
    }
    println!();
}

/// Prints a matrix cell by cell.
fn print_matrix(name: &str, columns: usize, places: usize, matrix: &[u16]) {
    for (number, cell) in matrix.chunks(places).enumerate() {
        print!("{name}{}{} =", number / columns + 1, number % columns + 1);
        print_polynomial(cell);
    }
}

fn print_transforms(u: &[u16], v: &[u16]) {
    print_matrix("u", N, N * (D + 1), u);
    print_matrix("v", N, D + 1, v);
}

fn main() -> Result<(), Refusal> {
    let mut r = [0; matrix_places(N, M, D)];
    let mut u = [0; u_places(N, D)];
    let mut v = [0; v_places(N, D)];
    let mut det = [0; determinant_places(N, D)];

    let reduced = reduce(P, N, M, D, &A, &mut r, &mut u, &mut v)?;
    print!("rank {} after {} steps, independent rows", reduced.rank, reduced.count);
    for row in (1..=N).filter(|&row| reduced.has_row(row)) {
        print!(" {row}");
    }
    println!();
    print_matrix("r", M, D + 1, &r);
    print_transforms(&u, &v);

    let count = step(P, N, M, D, &A, &mut r)?;
    println!("after {count} step");
    print_matrix("r", M, D + 1, &r);

    let formed = popov(P, N, M, D, &A, &mut r, &mut u, &mut v)?;
    println!(
        "Popov form of rank {} after {} + {} steps",
        formed.rank, formed.first, formed.second
    );
    print_matrix("p", M, D + 1, &r);
    print_transforms(&u, &v);

    determinant(P, N, M, D, &A, &mut det)?;
    print!("determinant =");
    print_polynomial(&det);
    Ok(())
}
