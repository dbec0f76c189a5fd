//! Matrices of polynomials, and the paper's layout of them in flat buffers:
//! cells row after row, in each row column after column, each cell with the
//! same number of places.

use crate::field;
use crate::poly::{self, Poly};

#[derive(Clone, PartialEq, Eq, Debug)]
pub struct Matrix {
    pub rows: usize,
    pub columns: usize,
    cells: Vec<Poly>,
}

impl Matrix {
    pub fn zero(rows: usize, columns: usize) -> Matrix {
        Matrix {
            rows,
            columns,
            cells: vec![Vec::new(); rows * columns],
        }
    }

    pub fn identity(n: usize) -> Matrix {
        let mut result = Matrix::zero(n, n);
        for i in 0..n {
            *result.cell_mut(i, i) = vec![1];
        }
        result
    }

    /// A matrix from its cells, row after row.
    pub fn from_cells(rows: usize, columns: usize, cells: Vec<Poly>) -> Matrix {
        assert_eq!(cells.len(), rows * columns);
        Matrix {
            rows,
            columns,
            cells,
        }
    }

    /// Reads a matrix from a buffer with w places for each cell.
    pub fn from_places(rows: usize, columns: usize, w: usize, places: &[u16]) -> Matrix {
        assert_eq!(places.len(), rows * columns * w);
        Matrix::from_cells(
            rows,
            columns,
            places.chunks(w).map(poly::from_places).collect(),
        )
    }

    /// Writes the matrix to a new buffer with w places for each cell.
    pub fn to_places(&self, w: usize) -> Vec<u16> {
        let mut places = vec![0; self.rows * self.columns * w];
        for (cell, part) in self.cells.iter().zip(places.chunks_mut(w)) {
            poly::to_places(cell, part);
        }
        places
    }

    pub fn cell(&self, row: usize, column: usize) -> &Poly {
        &self.cells[row * self.columns + column]
    }

    pub fn cell_mut(&mut self, row: usize, column: usize) -> &mut Poly {
        &mut self.cells[row * self.columns + column]
    }

    pub fn row_is_zero(&self, row: usize) -> bool {
        (0..self.columns).all(|j| self.cell(row, j).is_empty())
    }

    /// The greatest degree of any cell, -1 for the zero matrix.
    pub fn greatest_degree(&self) -> isize {
        self.cells.iter().map(poly::degree).max().unwrap_or(-1)
    }

    pub fn product(&self, p: u64, other: &Matrix) -> Matrix {
        assert_eq!(self.columns, other.rows);
        let mut result = Matrix::zero(self.rows, other.columns);
        for i in 0..self.rows {
            for j in 0..other.columns {
                *result.cell_mut(i, j) = poly::sum_of_products(
                    p,
                    (0..self.columns).map(|t| (self.cell(i, t), other.cell(t, j))),
                );
            }
        }
        result
    }

    /// Adds c·x^e times row k to row l.
    pub fn add_row_multiple(&mut self, p: u64, l: usize, c: u64, e: usize, k: usize) {
        assert_ne!(k, l);
        for j in 0..self.columns {
            let source = std::mem::take(self.cell_mut(k, j));
            poly::add_multiple(p, self.cell_mut(l, j), c, e, &source);
            *self.cell_mut(k, j) = source;
        }
    }

    /// Subtracts c·x^e times row k from row l.
    pub fn subtract_row_multiple(&mut self, p: u64, l: usize, c: u64, e: usize, k: usize) {
        self.add_row_multiple(p, l, field::negative(p, c), e, k);
    }

    /// Adds c·x^e times column l to column k.
    pub fn add_column_multiple(&mut self, p: u64, k: usize, c: u64, e: usize, l: usize) {
        assert_ne!(k, l);
        for i in 0..self.rows {
            let source = std::mem::take(self.cell_mut(i, l));
            poly::add_multiple(p, self.cell_mut(i, k), c, e, &source);
            *self.cell_mut(i, l) = source;
        }
    }

    pub fn scale_row(&mut self, p: u64, row: usize, c: u64) {
        for j in 0..self.columns {
            *self.cell_mut(row, j) = poly::scaled(p, c, self.cell(row, j));
        }
    }

    pub fn scale_column(&mut self, p: u64, column: usize, c: u64) {
        for i in 0..self.rows {
            *self.cell_mut(i, column) = poly::scaled(p, c, self.cell(i, column));
        }
    }

    /// The rows named by the list, in the order of the list.
    pub fn chosen_rows(&self, list: &[usize]) -> Matrix {
        let mut result = Matrix::zero(list.len(), self.columns);
        for (i, &row) in list.iter().enumerate() {
            for j in 0..self.columns {
                *result.cell_mut(i, j) = self.cell(row, j).clone();
            }
        }
        result
    }

    /// The columns named by the list, in the order of the list.
    pub fn chosen_columns(&self, list: &[usize]) -> Matrix {
        let mut result = Matrix::zero(self.rows, list.len());
        for i in 0..self.rows {
            for (j, &column) in list.iter().enumerate() {
                *result.cell_mut(i, j) = self.cell(i, column).clone();
            }
        }
        result
    }
}

#[cfg(test)]
mod tests {
    use super::*;

    #[test]
    fn layout() {
        let places = [1, 2, 0, 0, 3, 0, 0, 4, 5, 0, 6, 0];
        let a = Matrix::from_places(2, 3, 2, &places);
        assert_eq!(a.cell(0, 0), &vec![1, 2]);
        assert_eq!(a.cell(0, 1), &vec![]);
        assert_eq!(a.cell(0, 2), &vec![3]);
        assert_eq!(a.cell(1, 0), &vec![0, 4]);
        assert_eq!(a.to_places(2), places);
        assert_eq!(a.to_places(3)[..6], [1, 2, 0, 0, 0, 0]);
    }

    #[test]
    fn rows_and_columns_move_as_elementary_matrices() {
        let a = Matrix::from_places(2, 2, 2, &[1, 2, 3, 4, 5, 6, 0, 1]);
        let mut by_rows = Matrix::identity(2);
        by_rows.add_row_multiple(7, 1, 3, 2, 0);
        let mut moved = a.clone();
        moved.add_row_multiple(7, 1, 3, 2, 0);
        assert_eq!(moved, by_rows.product(7, &a));

        let mut by_columns = Matrix::identity(2);
        by_columns.add_column_multiple(7, 0, 3, 2, 1);
        let mut moved = a.clone();
        moved.add_column_multiple(7, 0, 3, 2, 1);
        assert_eq!(moved, a.product(7, &by_columns));
    }
}
