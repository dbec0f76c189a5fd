//! Texts for a printer, good ones and spoilt ones, the same for the same seed;
//! and the comparison of a printer's answers with this program's.

use crate::printer;
use crate::sample::{self, Sample, Source};
use crate::workers;
use std::io::{self, Write};
use std::process::{Command, Output, Stdio};

/// The text of a number: that of a sample, spoilt up to three times.
pub fn text(seed: u64, number: u64) -> Vec<u8> {
    let Sample { p, d, a, .. } = sample::sample(seed, number);
    let mut text = printer::question(p, d, &a).into_bytes();
    let source = &mut Source::for_number(!seed, number);
    for _ in 0..source.below(4) {
        source.one_of(&WAYS)(source, &mut text);
    }
    text
}

/// The ways to spoil a text. Some come to nothing where the text has no place
/// for them.
const WAYS: [fn(&mut Source, &mut Vec<u8>); 10] = [
    change_byte,
    remove_byte,
    insert_byte,
    change_lines,
    change_one_line,
    change_number,
    change_number,
    change_head,
    change_space,
    change_end,
];

/// Bytes that are near to right, and some that are not.
const BYTES: &[u8] = b"0123456789  ==\n\n\r\t\0.,+-apnmdAP_\x0b\x7f\x80\xa0\xff";

fn some_place(source: &mut Source, text: &[u8]) -> usize {
    source.below(text.len() + 1)
}

fn change_byte(source: &mut Source, text: &mut Vec<u8>) {
    let place = some_place(source, text);
    if let Some(byte) = text.get_mut(place) {
        *byte = source.one_of(BYTES);
    }
}

fn remove_byte(source: &mut Source, text: &mut Vec<u8>) {
    let place = some_place(source, text);
    if place < text.len() {
        text.remove(place);
    }
}

/// A byte from the list, or one of the text doubled.
fn insert_byte(source: &mut Source, text: &mut Vec<u8>) {
    let place = some_place(source, text);
    let byte = match text.get(place) {
        Some(&byte) if source.below(2) == 0 => byte,
        _ => source.one_of(BYTES),
    };
    text.insert(place, byte);
}

/// The lines of a text, each with its line feed as far as it has one.
fn lines(text: &[u8]) -> Vec<Vec<u8>> {
    let lines = text.split_inclusive(|&byte| byte == b'\n');
    lines.map(<[u8]>::to_vec).collect()
}

/// A line dropped, doubled, exchanged with another or with the next; the lines
/// before it put at the end; an empty line put in; or CR LF on every line.
fn change_lines(source: &mut Source, text: &mut Vec<u8>) {
    let mut lines = lines(text);
    if lines.is_empty() {
        return;
    }
    let one = source.below(lines.len());
    let other = source.below(lines.len());
    let next = (one + 1) % lines.len();
    match source.below(7) {
        0 => drop(lines.remove(one)),
        1 => lines.insert(one, lines[one].clone()),
        2 => lines.swap(one, other),
        3 => lines.swap(one, next),
        4 => lines.rotate_left(one),
        5 => lines.insert(one, b"\n".to_vec()),
        _ => lines.iter_mut().for_each(end_with_carriage_return),
    }
    *text = lines.concat();
}

fn end_with_carriage_return(line: &mut Vec<u8>) {
    if line.pop() == Some(b'\n') {
        line.extend(b"\r\n");
    }
}

/// One line with CR LF or a byte before its line feed, a byte before its key,
/// its key in the other case, its digits gone, or no line feed.
fn change_one_line(source: &mut Source, text: &mut Vec<u8>) {
    let mut lines = lines(text);
    if lines.is_empty() {
        return;
    }
    let one = source.below(lines.len());
    let line = &mut lines[one];
    let last = line.len() - 1;
    match source.below(6) {
        0 => end_with_carriage_return(line),
        1 => line.insert(last, source.one_of(b" \t\0=0,")),
        2 => line.insert(0, source.one_of(b" \t\0a")),
        3 => line[0] = line[0].to_ascii_uppercase(),
        4 => line.retain(|&byte| !byte.is_ascii_digit()),
        _ => drop(line.pop()),
    }
    *text = lines.concat();
}

/// What a number is replaced by: the samples' moduli and numbers next to a
/// bound, as they should be written and as they should not.
const NUMBERS: [&str; 26] = [
    "",
    "0",
    "00",
    "1",
    "2",
    "3",
    "7",
    "07",
    "929",
    "0929",
    "9999",
    "10000",
    "65520",
    "65521",
    "65535",
    "65536",
    "65537",
    "065535",
    "99999",
    "100000",
    "000000",
    "-0",
    "+1",
    "1e1",
    "0x1",
    "184467440737095516",
];

/// A number replaced, or with a zero, a sign or a digit more.
fn change_number(source: &mut Source, text: &mut Vec<u8>) {
    let starts: Vec<usize> = (0..text.len())
        .filter(|&place| text[place].is_ascii_digit())
        .filter(|&place| place > 0 && b"= ".contains(&text[place - 1]))
        .collect();
    if starts.is_empty() {
        return;
    }
    let start = source.one_of(&starts);
    let digits = text[start..].iter().take_while(|b| b.is_ascii_digit());
    let end = start + digits.count();
    match source.below(4) {
        0 => text.insert(start, source.one_of(b"0+-")),
        1 => text.insert(end, source.one_of(b"09")),
        _ => drop(text.splice(start..end, source.one_of(&NUMBERS).bytes())),
    }
}

/// One of the four numbers of the head replaced by another, most of them in
/// the format, so that refusals 1, 2, 3 and 6 arise.
fn change_head(source: &mut Source, text: &mut Vec<u8>) {
    let heads: [(&str, &[&str]); 4] = [
        (
            "p",
            &[
                "0", "1", "2", "3", "4", "9", "65519", "65520", "65522", "65535", "65537",
            ],
        ),
        ("n", &["0", "1", "7", "8", "9", "10", "65535"]),
        ("m", &["0", "1", "7", "8", "9", "10", "65535"]),
        ("d", &["0", "1", "62", "63", "64", "65", "65535"]),
    ];
    let mut lines = lines(text);
    let one = source.below(heads.len());
    if one < lines.len() {
        let (key, values) = heads[one];
        let value = source.one_of(values);
        lines[one] = format!("{key}={value}\n").into_bytes();
    }
    *text = lines.concat();
}

/// A space doubled, removed or replaced.
fn change_space(source: &mut Source, text: &mut Vec<u8>) {
    let spaces: Vec<usize> = (0..text.len()).filter(|&t| text[t] == b' ').collect();
    if spaces.is_empty() {
        return;
    }
    let space = source.one_of(&spaces);
    match source.below(3) {
        0 => text.insert(space, b' '),
        1 => drop(text.remove(space)),
        _ => text[space] = source.one_of(b"\t,;\n\0"),
    }
}

/// The text cut, empty, without its last byte, with something after it, or with
/// just the greatest length or about it.
fn change_end(source: &mut Source, text: &mut Vec<u8>) {
    let longest = printer::LONGEST;
    match source.below(6) {
        0 => text.truncate(some_place(source, text)),
        1 if source.below(4) == 0 => text.clear(),
        1 | 2 => drop(text.pop()),
        3 => text.extend(
            source
                .one_of(&["\n", " ", "\0", "x\n", "a11=0\n", "a99=1 1\n"])
                .bytes(),
        ),
        _ => {
            let length = source.one_of(&[longest - 1, longest, longest + 1, 2 * longest + 2]);
            text.resize(length, source.one_of(b"\n0 x"));
        }
    }
}

/// How many texts had the right answer and how many had not, and how many had
/// which refusal number.
#[derive(Default)]
pub struct Tally {
    pub passed: u64,
    pub failed: u64,
    pub numbers: [u64; 8],
}

impl Tally {
    fn add(&mut self, other: &Tally) {
        self.passed += other.passed;
        self.failed += other.failed;
        for (sum, number) in self.numbers.iter_mut().zip(other.numbers) {
            *sum += number;
        }
    }
}

/// Runs the printer on texts 0 to count - 1 of the seed. An error means that it
/// can't be run.
pub fn compare(printer: &str, count: u64, seed: u64) -> io::Result<Tally> {
    let work = |number, tally: &mut Tally| compare_text(printer, seed, number, tally);
    let mut all = Tally::default();
    for part in workers::share("fuzz", count, work)? {
        all.add(&part);
    }
    Ok(all)
}

fn compare_text(printer: &str, seed: u64, number: u64, tally: &mut Tally) -> io::Result<()> {
    let text = text(seed, number);
    let wanted = printer::answer(&text);
    let refusal = printer::read(&text).err();
    tally.numbers[refusal.map_or(0, |refusal| refusal.number as usize)] += 1;
    let output = run(printer, &text)?;
    if output.status.success() && output.stdout == wanted.as_bytes() && output.stderr.is_empty() {
        tally.passed += 1;
        return Ok(());
    }
    tally.failed += 1;
    println!("different: text {number} of seed {seed}, {}", output.status);
    for (what, bytes) in [
        ("text", &text[..]),
        ("wanted", wanted.as_bytes()),
        ("printed", &output.stdout),
        ("complained", &output.stderr),
    ] {
        let shown = bytes[..bytes.len().min(400)].escape_ascii();
        println!("  {what}, {} bytes: {shown}", bytes.len());
    }
    Ok(())
}

/// Runs a printer with the text at its standard input.
fn run(printer: &str, text: &[u8]) -> io::Result<Output> {
    let mut child = Command::new(printer)
        .stdin(Stdio::piped())
        .stdout(Stdio::piped())
        .stderr(Stdio::piped())
        .spawn()?;
    if let Some(mut input) = child.stdin.take() {
        // A printer may end before it has read all of a text that is too long.
        let _ = input.write_all(text);
    }
    child.wait_with_output()
}

#[cfg(test)]
mod tests {
    use super::*;

    /// All that may be answered arises, the lengths next to the greatest too.
    #[test]
    fn texts_of_every_answer() {
        let longest = printer::LONGEST;
        let mut numbers = std::collections::HashSet::new();
        let mut places = std::collections::HashSet::new();
        let mut lengths = std::collections::HashSet::new();
        for number in 0..5000 {
            let text = text(1, number);
            lengths.insert(text.len());
            match printer::read(&text) {
                Ok(_) => drop(numbers.insert(0)),
                Err(refusal) => {
                    numbers.insert(refusal.number);
                    if refusal.number == 7 {
                        places.insert(refusal.place);
                    }
                }
            }
        }
        for number in [0, 1, 2, 3, 6, 7] {
            assert!(numbers.contains(&number), "{number}");
        }
        for place in 0..20 {
            assert!(places.contains(&place), "{place}");
        }
        for length in [0, longest - 1, longest, longest + 1] {
            assert!(lengths.contains(&length), "{length}");
        }
    }
}
