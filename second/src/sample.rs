//! Inputs for tests and comparisons, the same for the same seed on every
//! machine: samples, pairs of matrices, and calls that are to be refused or are
//! next to being refused.

use crate::field;
use crate::matrix::Matrix;
use crate::poly::Poly;
use crate::refuse::{self, Call, Refusal, Service};

/// A source of numbers: splitmix64.
pub struct Source {
    state: u64,
}

impl Source {
    pub fn new(seed: u64) -> Source {
        Source { state: seed }
    }

    /// The source for one sample, so that a sample can be repeated alone.
    pub fn for_number(seed: u64, number: u64) -> Source {
        let mut source = Source::new(seed);
        let mixed = source.number() ^ number;
        Source::new(Source::new(mixed).number())
    }

    pub fn number(&mut self) -> u64 {
        self.state = self.state.wrapping_add(0x9e37_79b9_7f4a_7c15);
        let mut z = self.state;
        z = (z ^ (z >> 30)).wrapping_mul(0xbf58_476d_1ce4_e5b9);
        z = (z ^ (z >> 27)).wrapping_mul(0x94d0_49bb_1331_11eb);
        z ^ (z >> 31)
    }

    /// A number from 0 to bound - 1.
    pub fn below(&mut self, bound: usize) -> usize {
        (self.number() % bound as u64) as usize
    }

    /// A number from low to high.
    pub fn between(&mut self, low: usize, high: usize) -> usize {
        low + self.below(high - low + 1)
    }

    pub fn one_of<T: Copy>(&mut self, list: &[T]) -> T {
        list[self.below(list.len())]
    }

    pub fn residue(&mut self, p: u64) -> u64 {
        self.number() % p
    }

    pub fn residue_not_zero(&mut self, p: u64) -> u64 {
        1 + self.number() % (p - 1)
    }

    /// A polynomial of degree at most the given one (-1 gives zero).
    fn polynomial(&mut self, p: u64, degree: isize) -> Poly {
        let mut a: Poly = (0..degree + 1).map(|_| self.residue(p)).collect();
        while a.last() == Some(&0) {
            a.pop();
        }
        a
    }

    /// A polynomial of just the given degree.
    fn polynomial_of_degree(&mut self, p: u64, degree: usize) -> Poly {
        let mut a: Poly = (0..degree).map(|_| self.residue(p)).collect();
        a.push(self.residue_not_zero(p));
        a
    }

    /// Some different numbers below the bound, in no order.
    fn different(&mut self, many: usize, bound: usize) -> Vec<usize> {
        let mut list: Vec<usize> = (0..bound).collect();
        for i in 0..many {
            let other = self.between(i, bound - 1);
            list.swap(i, other);
        }
        list.truncate(many);
        list
    }
}

#[derive(Clone, Copy, PartialEq, Eq, Debug)]
pub enum Kind {
    Dense,
    Sparse,
    RankDeficient,
    ZeroRows,
    ZeroMatrix,
    ColumnBesideIdentity,
    TriangularProduct,
    EqualPivots,
    MultiplesOfOneRow,
    AlreadyReduced,
    OneRow,
    OneColumn,
}

/// The kinds, as often as they are to come.
const KINDS: [Kind; 18] = [
    Kind::Dense,
    Kind::Dense,
    Kind::Dense,
    Kind::Dense,
    Kind::Sparse,
    Kind::Sparse,
    Kind::RankDeficient,
    Kind::RankDeficient,
    Kind::ZeroRows,
    Kind::ZeroMatrix,
    Kind::ColumnBesideIdentity,
    Kind::TriangularProduct,
    Kind::EqualPivots,
    Kind::EqualPivots,
    Kind::MultiplesOfOneRow,
    Kind::AlreadyReduced,
    Kind::OneRow,
    Kind::OneColumn,
];

/// A matrix with its modulus and degree limit.
#[derive(Clone, Debug)]
pub struct Sample {
    pub kind: Kind,
    pub p: u64,
    pub d: usize,
    pub a: Matrix,
}

/// The sample of a number.
pub fn sample(seed: u64, number: u64) -> Sample {
    sample_of(seed, number, false)
}

/// The square sample of a number, of the same kinds; one row or one column is
/// then one cell.
pub fn square_sample(seed: u64, number: u64) -> Sample {
    sample_of(seed, number, true)
}

fn sample_of(seed: u64, number: u64, square: bool) -> Sample {
    let source = &mut Source::for_number(seed, number);
    let p = modulus(source);
    let (mut n, mut m, d) = shape(source);
    let kind = source.one_of(&KINDS);
    match kind {
        Kind::OneRow => n = 1,
        Kind::OneColumn => m = 1,
        _ => {}
    }
    if square {
        (n, m) = match kind {
            Kind::OneColumn => (m, m),
            _ => (n, n),
        };
    }
    let a = match kind {
        Kind::Dense | Kind::OneRow | Kind::OneColumn => dense(source, p, n, m, d),
        Kind::Sparse => sparse(source, p, n, m, d),
        Kind::RankDeficient => rank_deficient(source, p, n, m, d),
        Kind::ZeroRows => zero_rows(source, p, n, m, d),
        Kind::ZeroMatrix => Matrix::zero(n, m),
        Kind::ColumnBesideIdentity => column_beside_identity(source, p, n, m, d),
        Kind::TriangularProduct => triangular_product(source, p, n, m, d),
        Kind::EqualPivots => equal_pivots(source, p, n, m, d),
        Kind::MultiplesOfOneRow => combined_rows(source, p, n, m, d, 1),
        Kind::AlreadyReduced => already_reduced(source, p, n, m, d),
    };
    Sample { kind, p, d, a }
}

fn modulus(source: &mut Source) -> u64 {
    match source.below(12) {
        0 | 1 => 2,
        2 | 3 => 3,
        4 | 5 => 7,
        6 | 7 => 929,
        8..=10 => 65_521,
        _ => {
            let mut p = source.between(2, 65_521) as u64;
            while !field::is_prime(p) {
                p -= 1;
            }
            p
        }
    }
}

/// n, m and d: mostly small, all within bounds, the bounds themselves too.
fn shape(source: &mut Source) -> (usize, usize, usize) {
    match source.below(100) {
        0..=59 => (
            source.between(1, 4),
            source.between(1, 4),
            source.between(0, 3),
        ),
        60..=88 => (
            source.between(1, 8),
            source.between(1, 8),
            source.between(0, 8),
        ),
        89..=97 => (
            source.between(1, 8),
            source.between(1, 8),
            source.between(0, 63),
        ),
        98 => (
            source.one_of(&[1, 8]),
            source.one_of(&[1, 8]),
            source.one_of(&[0, 63]),
        ),
        _ => (8, 8, 63),
    }
}

/// A matrix whose cells the given function makes, from row and column.
fn filled(n: usize, m: usize, mut cell: impl FnMut(usize, usize) -> Poly) -> Matrix {
    let mut a = Matrix::zero(n, m);
    for i in 0..n {
        for j in 0..m {
            *a.cell_mut(i, j) = cell(i, j);
        }
    }
    a
}

fn dense(source: &mut Source, p: u64, n: usize, m: usize, d: usize) -> Matrix {
    filled(n, m, |_, _| source.polynomial(p, d as isize))
}

/// Most cells zero, the others with few terms.
fn sparse(source: &mut Source, p: u64, n: usize, m: usize, d: usize) -> Matrix {
    filled(n, m, |_, _| {
        let mut cell = Poly::new();
        if source.below(2) == 0 {
            for _ in 0..source.between(1, 3) {
                let e = source.between(0, d);
                if cell.len() <= e {
                    cell.resize(e + 1, 0);
                }
                cell[e] = source.residue_not_zero(p);
            }
        }
        cell
    })
}

/// Every row a combination of the given number of rows, with polynomial factors
/// as far as the degree limit allows.
fn combined_rows(source: &mut Source, p: u64, n: usize, m: usize, d: usize, many: usize) -> Matrix {
    let row_degree = source.between(0, d);
    let rows = dense(source, p, many, m, row_degree);
    let factors = dense(source, p, n, many, d - row_degree);
    factors.product(p, &rows)
}

fn rank_deficient(source: &mut Source, p: u64, n: usize, m: usize, d: usize) -> Matrix {
    let many = source.below(n);
    combined_rows(source, p, n, m, d, many)
}

fn zero_rows(source: &mut Source, p: u64, n: usize, m: usize, d: usize) -> Matrix {
    let many = source.between(1, n);
    let zero = source.different(many, n);
    filled(n, m, |i, _| {
        let degree = if zero.contains(&i) { -1 } else { d as isize };
        source.polynomial(p, degree)
    })
}

/// A first column of degree d beside an identity, as far as it has room.
fn column_beside_identity(source: &mut Source, p: u64, n: usize, m: usize, d: usize) -> Matrix {
    filled(n, m, |i, j| match j {
        0 => source.polynomial_of_degree(p, d),
        _ if j == i + 1 => vec![1],
        _ => Vec::new(),
    })
}

/// A lower times an upper triangular matrix with units on the diagonals: either
/// of degrees that the product has room for, or cut to degree d.
fn triangular_product(source: &mut Source, p: u64, n: usize, m: usize, d: usize) -> Matrix {
    let degree = if source.below(2) == 0 { d / 2 } else { d } as isize;
    let lower = filled(n, n, |i, j| match i.cmp(&j) {
        std::cmp::Ordering::Greater => source.polynomial(p, degree),
        std::cmp::Ordering::Equal => vec![1],
        std::cmp::Ordering::Less => Vec::new(),
    });
    let upper = filled(n, m, |i, j| match i.cmp(&j) {
        std::cmp::Ordering::Less => source.polynomial(p, degree),
        std::cmp::Ordering::Equal => vec![1],
        std::cmp::Ordering::Greater => Vec::new(),
    });
    let product = lower.product(p, &upper);
    filled(n, m, |i, j| {
        let mut cell = product.cell(i, j).clone();
        cell.truncate(d + 1);
        while cell.last() == Some(&0) {
            cell.pop();
        }
        cell
    })
}

/// A row with the pivot in the given column and of the given degree.
fn row_with_pivot(source: &mut Source, p: u64, m: usize, column: usize, degree: usize) -> Matrix {
    filled(1, m, |_, j| match j.cmp(&column) {
        std::cmp::Ordering::Less => source.polynomial(p, degree as isize),
        std::cmp::Ordering::Equal => source.polynomial_of_degree(p, degree),
        std::cmp::Ordering::Greater => source.polynomial(p, degree as isize - 1),
    })
}

fn matrix_of_rows(m: usize, rows: &[Matrix]) -> Matrix {
    filled(rows.len(), m, |i, j| rows[i].cell(0, j).clone())
}

/// Rows with equal pivots: all in one column or in one of two, with one degree
/// for all or with different degrees.
fn equal_pivots(source: &mut Source, p: u64, n: usize, m: usize, d: usize) -> Matrix {
    let columns = [source.below(m), source.below(m)];
    let one_column = source.below(2) == 0;
    let one_degree = source.below(2) == 0;
    let degree = source.between(0, d);
    let rows: Vec<Matrix> = (0..n)
        .map(|_| {
            let column = if one_column {
                columns[0]
            } else {
                source.one_of(&columns)
            };
            let degree = if one_degree {
                degree
            } else {
                source.between(0, d)
            };
            row_with_pivot(source, p, m, column, degree)
        })
        .collect();
    matrix_of_rows(m, &rows)
}

/// Weak Popov form from the start, zero rows anywhere.
fn already_reduced(source: &mut Source, p: u64, n: usize, m: usize, d: usize) -> Matrix {
    let rank = source.between(0, n.min(m));
    let numbers = source.different(rank, n);
    let columns = source.different(rank, m);
    let mut rows = vec![Matrix::zero(1, m); n];
    for (&row, &column) in numbers.iter().zip(&columns) {
        let degree = source.between(0, d);
        rows[row] = row_with_pivot(source, p, m, column, degree);
    }
    matrix_of_rows(m, &rows)
}

/// Two matrices of the same shape, and whether one is a unimodular matrix times
/// the other.
#[derive(Clone, Debug)]
pub struct Pair {
    pub p: u64,
    pub d: usize,
    pub first: Matrix,
    pub second: Matrix,
    pub equivalent: bool,
    /// The Popov form of the first, where the pair was made from it.
    pub form: Option<Matrix>,
}

/// The pair of a number.
pub fn pair(seed: u64, number: u64) -> Pair {
    match Source::for_number(!seed, number).below(3) {
        // A sample A and W·A.
        0 => {
            let Sample { p, d, a, .. } = sample(seed, number);
            let source = &mut Source::for_number(!seed, !number);
            let second = moved(source, p, d, &a);
            Pair {
                p,
                d,
                first: a,
                second,
                equivalent: true,
                form: None,
            }
        }
        // W·P and W'·P or W'·P', where P and P' are different Popov forms.
        way => {
            let source = &mut Source::for_number(!seed, !number);
            let p = modulus(source);
            let (n, m, d) = shape(source);
            let form = popov_form(source, p, n, m, d);
            let other = if way == 1 {
                form.matrix.clone()
            } else {
                different_form(source, p, &form)
            };
            Pair {
                p,
                d,
                first: moved(source, p, d, &form.matrix),
                second: moved(source, p, d, &other),
                equivalent: way == 1,
                form: Some(form.matrix),
            }
        }
    }
}

/// W·A for W a product of elementary matrices, such that no degree passes d.
fn moved(source: &mut Source, p: u64, d: usize, a: &Matrix) -> Matrix {
    let mut a = a.clone();
    let n = a.rows;
    for _ in 0..source.between(1, 6 * n) {
        let k = source.below(n);
        let l = source.below(n);
        match source.below(8) {
            0 if k != l => {
                let mut order: Vec<usize> = (0..n).collect();
                order.swap(k, l);
                a = a.chosen_rows(&order);
            }
            1 => {
                let c = source.residue_not_zero(p);
                a.scale_row(p, k, c);
            }
            _ if k != l => {
                let degree = a.chosen_rows(&[k]).greatest_degree().max(0) as usize;
                let e = source.between(0, d - degree);
                let c = source.residue_not_zero(p);
                a.add_row_multiple(p, l, c, e, k);
            }
            _ => {}
        }
    }
    a
}

/// A Popov form, with the pivots of its rows that are not zero: column, counted
/// from 0, and degree.
struct Form {
    matrix: Matrix,
    pivots: Vec<(usize, usize)>,
}

impl Form {
    /// How far the cell of a row that is not zero may be filled without any
    /// change of a pivot: the number of its free coefficients.
    fn free(&self, row: usize, column: usize) -> usize {
        let (own_column, own_degree) = self.pivots[row];
        let mut free = if column < own_column {
            own_degree + 1
        } else {
            own_degree
        };
        for &(other_column, other_degree) in &self.pivots {
            if other_column == column && column != own_column {
                free = free.min(other_degree);
            }
        }
        free
    }
}

/// A Popov form, of half the degree limit as often as not so that there is room
/// to move.
fn popov_form(source: &mut Source, p: u64, n: usize, m: usize, d: usize) -> Form {
    let limit = if source.below(2) == 0 { d / 2 } else { d };
    let rank = source.between(0, n.min(m));
    let mut pivots: Vec<(usize, usize)> = source
        .different(rank, m)
        .into_iter()
        .map(|column| (column, source.between(0, limit)))
        .collect();
    pivots.sort_by_key(|&(column, degree)| (degree, column));
    let mut form = Form {
        matrix: Matrix::zero(n, m),
        pivots,
    };
    for row in 0..rank {
        for column in 0..m {
            let free = form.free(row, column);
            let mut cell = source.polynomial(p, free as isize - 1);
            if column == form.pivots[row].0 {
                cell.resize(form.pivots[row].1, 0);
                cell.push(1);
            }
            *form.matrix.cell_mut(row, column) = cell;
        }
    }
    form
}

/// Another Popov form: one free coefficient changed or, where there is none, a
/// row more or less.
fn different_form(source: &mut Source, p: u64, form: &Form) -> Matrix {
    let (n, m, rank) = (form.matrix.rows, form.matrix.columns, form.pivots.len());
    let mut other = form.matrix.clone();
    let free_cells: Vec<(usize, usize)> = (0..rank)
        .flat_map(|row| (0..m).map(move |column| (row, column)))
        .filter(|&(row, column)| form.free(row, column) > 0)
        .collect();
    if !free_cells.is_empty() && source.below(4) > 0 {
        let (row, column) = source.one_of(&free_cells);
        let e = source.below(form.free(row, column));
        let cell = other.cell_mut(row, column);
        if cell.len() <= e {
            cell.resize(e + 1, 0);
        }
        cell[e] = field::sum(p, cell[e], source.residue_not_zero(p));
        while cell.last() == Some(&0) {
            cell.pop();
        }
    } else if rank > 0 {
        for column in 0..m {
            other.cell_mut(rank - 1, column).clear();
        }
    } else {
        let row = source.below(n);
        *other.cell_mut(row, source.below(m)) = vec![1];
    }
    other
}

/// A call with what it must answer: known from how the call was made, not found
/// by looking at it.
#[derive(Clone, Debug)]
pub struct RefusalInput {
    pub label: String,
    pub call: Call,
    pub answer: Option<Refusal>,
}

/// One thing that is to be wrong in a call, or just right.
#[derive(Clone, Copy, PartialEq, Eq, Debug)]
enum Change {
    P(u32),
    N(u32),
    M(u32),
    D(u32),
    /// A buffer, counted from 1, and its new length.
    Length(usize, NewLength),
    /// An input coefficient.
    Coefficient(Index, u16),
}

#[derive(Clone, Copy, PartialEq, Eq, Debug)]
enum NewLength {
    Short,
    Long,
    Empty,
}

const NEW_LENGTHS: [NewLength; 3] = [NewLength::Short, NewLength::Long, NewLength::Empty];

#[derive(Clone, Copy, PartialEq, Eq, Debug)]
enum Index {
    First,
    Middle,
    Last,
}

const INDICES: [Index; 3] = [Index::First, Index::Middle, Index::Last];

const MODULI: [u32; 15] = [
    0,
    1,
    2,
    4,
    9,
    25,
    65_519,
    65_520,
    65_521,
    65_522,
    65_535,
    65_536,
    65_537,
    4_294_967_291,
    4_294_967_295,
];
/// Those of the list that are primes up to 65,521.
const RIGHT_MODULI: [u32; 3] = [2, 65_519, 65_521];
const SIDES: [u32; 5] = [0, 1, 8, 9, 4_294_967_295];
const RIGHT_SIDES: [u32; 2] = [1, 8];
const LIMITS: [u32; 4] = [0, 63, 64, 4_294_967_295];
const RIGHT_LIMITS: [u32; 2] = [0, 63];

/// The shapes from which calls are made by change: p, n, m, d.
const SHAPES: [(u32, u32, u32, u32); 5] = [
    (7, 2, 3, 2),
    (7, 3, 3, 4),
    (2, 1, 1, 0),
    (65_521, 8, 8, 63),
    (929, 4, 2, 1),
];

/// All refusal inputs of a service.
pub fn refusal_inputs(service: Service, seed: u64) -> Vec<RefusalInput> {
    let source = &mut Source::new(seed);
    let mut inputs = Vec::new();
    inputs_of_all_heads(source, service, &mut inputs);
    for (p, n, m, d) in SHAPES {
        inputs_by_change(source, service, (p, n, m, d), &mut inputs);
        if service == Service::Determinant && n != m {
            inputs_by_change(source, service, (p, n, n, d), &mut inputs);
        }
    }
    inputs
}

/// Every p, n, m, d of the lists with every other, buffers as the table says.
fn inputs_of_all_heads(source: &mut Source, service: Service, inputs: &mut Vec<RefusalInput>) {
    for p in MODULI {
        for n in SIDES {
            for m in SIDES {
                for d in LIMITS {
                    let number = if !RIGHT_MODULI.contains(&p) {
                        1
                    } else if !RIGHT_SIDES.contains(&n) || !RIGHT_SIDES.contains(&m) {
                        2
                    } else if !RIGHT_LIMITS.contains(&d) {
                        3
                    } else if service == Service::Determinant && n != m {
                        4
                    } else {
                        0
                    };
                    inputs.push(RefusalInput {
                        label: "head".to_string(),
                        call: call_with_buffers(source, service, (p, n, m, d)),
                        answer: (number > 0).then(|| Refusal::new(number, 0)),
                    });
                }
            }
        }
    }
}

/// One change alone, and every change with every later one.
fn inputs_by_change(
    source: &mut Source,
    service: Service,
    shape: (u32, u32, u32, u32),
    inputs: &mut Vec<RefusalInput>,
) {
    let changes = changes(service, shape.0);
    inputs.push(changed_input(source, service, shape, &[]));
    for (i, &one) in changes.iter().enumerate() {
        inputs.push(changed_input(source, service, shape, &[one]));
        for &two in &changes[i + 1..] {
            inputs.push(changed_input(source, service, shape, &[one, two]));
        }
    }
}

fn changes(service: Service, p: u32) -> Vec<Change> {
    let mut changes = vec![
        Change::P(0),
        Change::P(1),
        Change::P(9),
        Change::P(65_537),
        Change::N(0),
        Change::N(9),
        Change::M(0),
        Change::M(9),
        Change::M(4_294_967_295),
        Change::D(64),
        Change::D(4_294_967_295),
    ];
    for buffer in 1..=refuse::places(service, 1, 1, 0).len() {
        for length in NEW_LENGTHS {
            changes.push(Change::Length(buffer, length));
        }
    }
    for index in INDICES {
        // The greatest coefficient that is right, then three that are not.
        for value in [p - 1, p, p + 1, 65_535] {
            changes.push(Change::Coefficient(index, value as u16));
        }
    }
    changes
}

fn changed_input(
    source: &mut Source,
    service: Service,
    shape: (u32, u32, u32, u32),
    changes: &[Change],
) -> RefusalInput {
    let mut call = call_with_buffers(source, service, shape);
    let right_lengths = refuse::places(service, call.n as usize, call.m as usize, call.d as usize);
    // Coefficients first: a shorter input may lose one again, which then is
    // behind the refusal of the length.
    let mut faults = change_coefficients(&mut call, changes);
    if service == Service::Determinant && call.n != call.m {
        faults.push((4, 0));
    }
    for &change in changes {
        faults.extend(change_shape(&mut call, &right_lengths, change));
    }
    RefusalInput {
        label: format!("{changes:?}"),
        call,
        answer: faults
            .into_iter()
            .min()
            .map(|(number, place)| Refusal::new(number, place)),
    }
}

/// Makes the changes of coefficients. Returns refusal 6 with the first place
/// that is wrong then.
fn change_coefficients(call: &mut Call, changes: &[Change]) -> Vec<(u32, u64)> {
    let mut wrong = Vec::new();
    for &change in changes {
        if let Change::Coefficient(index, value) = change {
            let last = call.input.len() - 1;
            let index = match index {
                Index::First => 0,
                Index::Middle => last / 2,
                Index::Last => last,
            };
            call.input[index] = value;
            wrong.retain(|&other| other != index);
            if value as u32 >= call.p {
                wrong.push(index);
            }
        }
    }
    let first = wrong.iter().min();
    first.map(|&place| (6, place as u64)).into_iter().collect()
}

/// Makes a change of a number or of a length. Returns its refusal and place.
fn change_shape(call: &mut Call, right_lengths: &[usize], change: Change) -> Option<(u32, u64)> {
    match change {
        Change::P(value) => {
            call.p = value;
            Some((1, 0))
        }
        Change::N(value) => {
            call.n = value;
            Some((2, 0))
        }
        Change::M(value) => {
            call.m = value;
            Some((2, 0))
        }
        Change::D(value) => {
            call.d = value;
            Some((3, 0))
        }
        Change::Length(buffer, length) => {
            let length = match length {
                NewLength::Short => right_lengths[buffer - 1] - 1,
                NewLength::Long => right_lengths[buffer - 1] + 1,
                NewLength::Empty => 0,
            };
            match buffer {
                1 => call.input.resize(length, 0),
                _ => call.lengths[buffer - 2] = length,
            }
            Some((5, buffer as u64))
        }
        Change::Coefficient(..) => None,
    }
}

/// A call with all buffers as the table says, where the table says anything;
/// small buffers else. Coefficients are below p as far as there are any.
fn call_with_buffers(
    source: &mut Source,
    service: Service,
    (p, n, m, d): (u32, u32, u32, u32),
) -> Call {
    let right_shape = (1..=8).contains(&n) && (1..=8).contains(&m) && d <= 63;
    let mut lengths = if right_shape {
        refuse::places(service, n as usize, m as usize, d as usize)
    } else {
        vec![6; refuse::places(service, 1, 1, 0).len()]
    };
    let input_length = lengths.remove(0);
    let bound = p.clamp(1, 65_536) as u64;
    Call {
        service,
        p,
        n,
        m,
        d,
        input: (0..input_length)
            .map(|_| source.residue(bound) as u16)
            .collect(),
        lengths,
    }
}

#[cfg(test)]
mod tests {
    use super::*;
    use crate::check;

    #[test]
    fn numbers_of_the_source() {
        // The first numbers of splitmix64 from 0.
        let mut source = Source::new(0);
        assert_eq!(source.number(), 0xe220_a839_7b1d_cdaf);
        assert_eq!(source.number(), 0x6e78_9e6a_a1b9_65f4);
    }

    #[test]
    fn samples_keep_their_bounds() {
        let mut kinds = Vec::new();
        let mut shapes = std::collections::HashSet::new();
        let mut degrees = std::collections::HashSet::new();
        for number in 0..6000 {
            let Sample { kind, p, d, a } = sample(1, number);
            assert!(field::is_prime(p) && p <= field::LARGEST_MODULUS);
            assert!(a.greatest_degree() <= d as isize && d <= 63);
            let places = a.to_places(d + 1);
            assert!(places.iter().all(|&c| (c as u64) < p));
            assert_eq!(Matrix::from_places(a.rows, a.columns, d + 1, &places), a);
            shapes.insert((a.rows, a.columns));
            degrees.insert(d);
            if !kinds.contains(&kind) {
                kinds.push(kind);
            }
        }
        assert_eq!(kinds.len(), 12);
        assert_eq!(shapes.len(), 64);
        assert_eq!(degrees.len(), 64);
    }

    #[test]
    fn square_samples_are_of_every_kind_and_size() {
        let mut seen = std::collections::HashSet::new();
        for number in 0..6000 {
            let Sample { kind, d, a, .. } = square_sample(1, number);
            assert_eq!(a.rows, a.columns);
            assert!(a.greatest_degree() <= d as isize && d <= 63);
            seen.insert((format!("{kind:?}"), a.rows));
        }
        // Ten kinds of eight sizes, and two of one cell.
        assert_eq!(seen.len(), 82);
    }

    #[test]
    fn pairs_keep_their_bounds() {
        for number in 0..2000 {
            let pair = pair(1, number);
            assert!(pair.first.greatest_degree() <= pair.d as isize);
            assert!(pair.second.greatest_degree() <= pair.d as isize);
            if let Some(form) = pair.form {
                assert!(check::is_popov(&form));
            }
        }
    }
}
