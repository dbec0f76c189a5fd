//! The printer: text in, text out. Follows "The printer" of the paper, which
//! gives the order of the checks too.

use crate::det;
use crate::matrix::Matrix;
use crate::reduce;
use crate::refuse::{self, Refusal};

/// The greatest length of a text, in bytes. A longer one is refused at place 0.
pub const LONGEST: usize = 32_768;

/// What is printed for a text.
pub fn answer(text: &[u8]) -> String {
    match read(text) {
        Ok((p, d, a)) => done(p, d, &a),
        Err(Refusal { number, place }) => format!("answer={number}\nplace={place}\n"),
    }
}

/// Modulus, degree limit and matrix of a text, or its refusal.
pub fn read(text: &[u8]) -> Result<(u64, usize, Matrix), Refusal> {
    if text.len() > LONGEST {
        return Err(Refusal::new(7, 0));
    }
    let mut lines = Lines {
        rest: text,
        number: 0,
    };
    let p = lines.next("p", 1)?[0] as u32;
    let n = lines.next("n", 1)?[0] as u32;
    let m = lines.next("m", 1)?[0] as u32;
    let d = lines.next("d", 1)?[0] as u32;
    refuse::of_numbers(p, n, m, d).map_or(Ok(()), Err)?;

    let (n, m, w) = (n as usize, m as usize, d as usize + 1);
    let mut places = Vec::new();
    for i in 1..=n {
        for j in 1..=m {
            places.extend(lines.next(&format!("a{i}{j}"), w)?);
        }
    }
    lines.end()?;
    refuse::of_coefficients(p, &places).map_or(Ok(()), Err)?;
    Ok((p as u64, w - 1, Matrix::from_places(n, m, w, &places)))
}

/// What is left of a text, and the number of the line before it.
struct Lines<'a> {
    rest: &'a [u8],
    number: u64,
}

impl Lines<'_> {
    /// The numbers of the next line, which must have the key and so many of
    /// them.
    fn next(&mut self, key: &str, many: usize) -> Result<Vec<u16>, Refusal> {
        self.number += 1;
        self.numbers(key, many).ok_or(Refusal::new(7, self.number))
    }

    fn numbers(&mut self, key: &str, many: usize) -> Option<Vec<u16>> {
        let end = self.rest.iter().position(|&byte| byte == b'\n')?;
        let line = &self.rest[..end];
        self.rest = &self.rest[end + 1..];
        let value = line.strip_prefix(key.as_bytes())?.strip_prefix(b"=")?;
        let numbers: Option<Vec<u16>> = value.split(|&byte| byte == b' ').map(number).collect();
        numbers.filter(|numbers| numbers.len() == many)
    }

    /// Nothing follows the last line.
    fn end(&self) -> Result<(), Refusal> {
        match self.rest {
            [] => Ok(()),
            _ => Err(Refusal::new(7, self.number + 1)),
        }
    }
}

/// A number of 1 to 5 digits, up to 65,535, with no needless leading zero.
fn number(digits: &[u8]) -> Option<u16> {
    let right = match digits {
        [] => false,
        [b'0', _, ..] => false,
        _ => digits.len() <= 5 && digits.iter().all(u8::is_ascii_digit),
    };
    if !right {
        return None;
    }
    let value = digits
        .iter()
        .fold(0, |value, digit| 10 * value + (digit - b'0') as u32);
    u16::try_from(value).ok()
}

/// What is printed for a matrix.
fn done(p: u64, d: usize, a: &Matrix) -> String {
    let reduction = reduce::reduce(p, a);
    let (rank, count) = (reduction.rank, reduction.count);
    let mut text = format!("answer=0\nrank={rank}\nsteps={count}\n");
    text += &cell_lines("r", d, &reduction.r);
    if a.rows == a.columns {
        text += &line("det", &det::determinant_places(p, d, a));
    }
    text
}

/// The text that asks for a matrix.
pub fn question(p: u64, d: usize, a: &Matrix) -> String {
    let (n, m) = (a.rows, a.columns);
    format!("p={p}\nn={n}\nm={m}\nd={d}\n") + &cell_lines("a", d, a)
}

fn cell_lines(letter: &str, d: usize, a: &Matrix) -> String {
    let places = a.to_places(d + 1);
    let cells = places.chunks(d + 1).enumerate();
    cells
        .map(|(cell, numbers)| {
            let (i, j) = (cell / a.columns + 1, cell % a.columns + 1);
            line(&format!("{letter}{i}{j}"), numbers)
        })
        .collect()
}

fn line(key: &str, numbers: &[u16]) -> String {
    let numbers: Vec<String> = numbers.iter().map(u16::to_string).collect();
    format!("{key}={}\n", numbers.join(" "))
}

#[cfg(test)]
mod tests {
    use super::*;

    const EXAMPLE: &str = "\
p=7
n=2
m=2
d=2
a11=1 0 0
a12=0 1 0
a21=0 1 0
a22=1 0 1
";

    /// The example with one part replaced.
    fn with(old: &str, new: &str) -> String {
        assert!(EXAMPLE.contains(old));
        EXAMPLE.replacen(old, new, 1)
    }

    #[track_caller]
    fn refused(text: &str, number: u32, place: u64) {
        let wanted = format!("answer={number}\nplace={place}\n");
        assert_eq!(answer(text.as_bytes()), wanted, "{text:?}");
    }

    #[test]
    fn example_of_the_paper() {
        let wanted = "\
answer=0
rank=2
steps=2
r11=1 0 0
r12=0 0 0
r21=0 0 0
r22=1 0 0
det=1 0 0 0 0
";
        assert_eq!(answer(EXAMPLE.as_bytes()), wanted);
        let (p, d, a) = read(EXAMPLE.as_bytes()).unwrap();
        assert_eq!(question(p, d, &a), EXAMPLE);
    }

    #[test]
    fn no_determinant_where_rows_and_columns_differ() {
        let text = "p=7\nn=1\nm=2\nd=0\na11=3\na12=6\n";
        let wanted = "answer=0\nrank=1\nsteps=0\nr11=3\nr12=6\n";
        assert_eq!(answer(text.as_bytes()), wanted);
    }

    #[test]
    fn numbers_of_the_head() {
        for p in ["0", "1", "9", "65522", "65535"] {
            refused(&with("p=7", &format!("p={p}")), 1, 0);
        }
        for side in ["n", "m"] {
            for value in ["0", "9", "65535"] {
                let line = format!("{side}={value}");
                refused(&with(&format!("{side}=2"), &line), 2, 0);
            }
        }
        refused(&with("d=2", "d=64"), 3, 0);
        // The first that applies is the answer.
        refused(&with("p=7\nn=2", "p=9\nn=9"), 1, 0);
        refused(&with("m=2\nd=2", "m=9\nd=64"), 2, 0);
    }

    #[test]
    fn coefficients() {
        refused(&with("a12=0 1 0", "a12=0 7 0"), 6, 4);
        refused(&with("a22=1 0 1", "a22=1 0 65535"), 6, 11);
        refused(&with("a12=0 1 0\na21=0", "a12=0 1 8\na21=9"), 6, 5);
        assert!(read(with("a12=0 1 0", "a12=6 6 6").as_bytes()).is_ok());
    }

    #[test]
    fn head_lines() {
        for value in ["", "07", "00", "000007", "123456", "65536", "99999"] {
            refused(&with("p=7", &format!("p={value}")), 7, 1);
        }
        for line in [
            "n 2", "n= 2", "n=2 ", " n=2", "N=2", "n=+2", "n=-2", "n=2\r",
        ] {
            refused(&with("n=2", line), 7, 2);
        }
        for line in ["m=2 2", "m=\t2", "m=2\0", "m=2.", "m==2", "mm=2", ""] {
            refused(&with("m=2", line), 7, 3);
        }
        refused(&with("n=2\nm=2", "m=2\nn=2"), 7, 2);
        refused(&with("d=2\n", ""), 7, 4);
        refused("", 7, 1);
        refused("\n", 7, 1);
        refused("p=7", 7, 1);
        refused("p=7\n", 7, 2);
        refused("p=7\nn=2\nm=2\nd=2", 7, 4);
        // Before refusals 1, 2 and 3.
        refused(&with("p=7\nn=2\nm=2\nd=2", "p=9\nn=2\nm=2\nd=02"), 7, 4);
    }

    #[test]
    fn cell_lines_are_as_said() {
        for value in ["1 0", "1 0 0 0", "1  0 0", "1 0 0 ", " 1 0 0", "1\t0 0"] {
            refused(&with("a11=1 0 0", &format!("a11={value}")), 7, 5);
        }
        for value in ["1 00 1", "1 0 01", "1 0 -1", "1 0 65536", "1 0 x", ""] {
            refused(&with("a22=1 0 1", &format!("a22={value}")), 7, 8);
        }
        refused(&with("a12", "A12"), 7, 6);
        refused(&with("a12", "a21"), 7, 6);
        refused(&with("a21=0 1 0\n", ""), 7, 7);
        refused(&with("a21=0 1 0\n", "\na21=0 1 0\n"), 7, 7);
        refused(&EXAMPLE.replace('\n', "\r\n"), 7, 1);
        // Before refusal 6, after refusals 1, 2 and 3.
        refused(&with("a11=1 0 0\na12=0 1 0", "a11=7 0 0\na12=0 1"), 7, 6);
        refused(&with("p=7", "p=9").replace("a11=", "a11"), 1, 0);
    }

    #[test]
    fn end_of_the_text() {
        refused(EXAMPLE.strip_suffix('\n').unwrap(), 7, 8);
        refused(&with("a22=1 0 1\n", ""), 7, 8);
        refused(&with("a22=1 0 1\n", "a2"), 7, 8);
        for more in ["\n", " ", "\0", "a23=1 0 0\n"] {
            refused(&(EXAMPLE.to_string() + more), 7, 9);
        }
    }

    #[test]
    fn length_of_the_text() {
        let padded = |length| format!("{EXAMPLE:\n<length$}");
        assert_eq!(padded(LONGEST).len(), LONGEST);
        refused(&padded(LONGEST), 7, 9);
        refused(&padded(LONGEST + 1), 7, 0);
        refused(&"x".repeat(LONGEST), 7, 1);
        refused(&"x".repeat(LONGEST + 1), 7, 0);
    }
}
