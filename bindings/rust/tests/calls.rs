//! Makes the calls of tests/bindings/calls.txt, each by the function that returns a `Result` and by that of `raw`. Each
//! answer has its number and place. In a refusal all else is 0 and no buffer is touched; else every place is written.

use moorbesen::{determinant, popov, raw, reduce, step, Refusal};

const CALLS: &str = include_str!("../../../tests/bindings/calls.txt");

/// What a place holds before a call: no coefficient is as large.
const BEFORE: u16 = u16::MAX;

/// The numbers of a line after its services.
fn numbers(line: &str) -> Vec<usize> {
    let fields = line.split_whitespace().skip(1);
    fields.map(|field| field.parse().expect("a number")).collect()
}

/// The buffers after the input, of which a service takes the first few.
type Buffers = [Vec<u16>; 3];

/// Makes the calls of one service, whose function says only whether it was refused.
fn as_listed(service: char, taken: usize, call: impl Fn(u32, [usize; 3], &[u16], &mut Buffers) -> Result<(), Refusal>) {
    let of_service = |line: &&str| {
        line.split_whitespace()
            .next()
            .is_some_and(|first| first.contains(service))
    };
    let lines: Vec<&str> = CALLS
        .lines()
        .filter(|line| !line.starts_with('#'))
        .filter(of_service)
        .collect();
    assert!(lines.len() > 20);
    for line in lines {
        let &[p, n, m, d, a_len, r_len, u_len, v_len, from, number, place] = &numbers(line)[..] else {
            panic!("not a call: {line}");
        };
        let p = p as u32;
        let a: Vec<u16> = (0..a_len)
            .map(|i| if i < from { p.wrapping_sub(1) } else { p } as u16)
            .collect();
        let mut buffers = [r_len, u_len, v_len].map(|length| vec![BEFORE; length]);
        let answer = call(p, [n, m, d], &a, &mut buffers);
        let listed = if number == 0 {
            Ok(())
        } else {
            Err(Refusal { number, place })
        };
        assert_eq!(answer, listed, "{line}");
        for (i, buffer) in buffers.iter().enumerate() {
            let right = |&place: &u16| {
                if number == 0 && i < taken {
                    u32::from(place) < p
                } else {
                    place == BEFORE
                }
            };
            assert!(buffer.iter().all(right), "buffer {} after the input: {line}", i + 1);
        }
    }
}

/// Whether a reply says that the call was refused: its other numbers are 0 then, and else its place is.
fn refused(number: usize, place: usize, others: [u64; 3]) -> Result<(), Refusal> {
    if number == 0 {
        assert_eq!(place, 0);
        return Ok(());
    }
    assert_eq!(others, [0; 3]);
    Err(Refusal { number, place })
}

#[test]
fn reductions() {
    as_listed('r', 3, |p, [n, m, d], a, [r, u, v]| {
        reduce(p, n, m, d, a, r, u, v).map(drop)
    });
}

#[test]
fn steps() {
    as_listed('s', 1, |p, [n, m, d], a, [r, _, _]| step(p, n, m, d, a, r).map(drop));
}

#[test]
fn popov_forms() {
    as_listed('p', 3, |p, [n, m, d], a, [r, u, v]| {
        popov(p, n, m, d, a, r, u, v).map(drop)
    });
}

#[test]
fn determinants() {
    as_listed('d', 1, |p, [n, m, d], a, [r, _, _]| determinant(p, n, m, d, a, r));
}

#[test]
fn raw_reductions() {
    as_listed('r', 3, |p, [n, m, d], a, [r, u, v]| {
        let x = raw::reduce(p, n, m, d, a, r, u, v);
        refused(x.number, x.place, [x.rank as u64, x.count, x.rows as u64])
    });
}

#[test]
fn raw_steps() {
    as_listed('s', 1, |p, [n, m, d], a, [r, _, _]| {
        let x = raw::step(p, n, m, d, a, r);
        refused(x.number, x.place, [x.rank as u64, x.count, x.rows as u64])
    });
}

#[test]
fn raw_popov_forms() {
    as_listed('p', 3, |p, [n, m, d], a, [r, u, v]| {
        let x = raw::popov(p, n, m, d, a, r, u, v);
        refused(x.number, x.place, [x.rank as u64, x.first, x.second])
    });
}

#[test]
fn raw_determinants() {
    as_listed('d', 1, |p, [n, m, d], a, [r, _, _]| {
        let x = raw::determinant(p, n, m, d, a, r);
        refused(x.number, x.place, [0; 3])
    });
}

#[test]
fn lengths_of_the_table() {
    assert_eq!(moorbesen::matrix_places(2, 3, 1), 12);
    assert_eq!(moorbesen::u_places(8, 63), 32_768);
    assert_eq!(moorbesen::v_places(8, 63), 4_096);
    assert_eq!(moorbesen::determinant_places(8, 63), 505);
    // No number is refused by a panic.
    assert_eq!(moorbesen::u_places(usize::MAX, usize::MAX), usize::MAX);
}

#[test]
fn row_lists() {
    let done = moorbesen::Reduction {
        rank: 2,
        count: 0,
        rows: 0b1000_0001,
    };
    let listed: Vec<usize> = (0..100).filter(|&row| done.has_row(row)).collect();
    assert_eq!(listed, [1, 8]);
}
