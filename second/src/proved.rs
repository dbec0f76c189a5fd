//! The comparison with the proved program, through its bindings for Rust. All
//! that concerns the bindings stands in this file; it is compiled only with the
//! feature `proved`.

use crate::check::{self, Faults};
use crate::det;
use crate::matrix::Matrix;
use crate::popov;
use crate::reduce;
use crate::refuse::{self, Call, Service};
use crate::sample::{self, Sample};
use crate::workers;
use moorbesen::{raw, Refusal};

/// An answer by its numbers, for all services; what a service does not answer
/// is 0.
#[derive(Clone, Copy, Default, PartialEq, Eq, Debug)]
struct Said {
    number: usize,
    place: usize,
    rank: usize,
    first_count: u64,
    second_count: u64,
    rows: usize,
}

/// What is said by the answer of a service, whose numbers are told by `done`.
fn said<T>(answer: Result<T, Refusal>, done: impl Fn(T) -> Said) -> Said {
    answer.map_or_else(
        |Refusal { number, place }| Said {
            number,
            place,
            ..Said::default()
        },
        done,
    )
}

impl From<raw::Reply> for Said {
    fn from(reply: raw::Reply) -> Said {
        Said {
            number: reply.number,
            place: reply.place,
            rank: reply.rank,
            first_count: reply.count,
            rows: reply.rows,
            ..Said::default()
        }
    }
}

impl From<raw::PopovReply> for Said {
    fn from(reply: raw::PopovReply) -> Said {
        Said {
            number: reply.number,
            place: reply.place,
            rank: reply.rank,
            first_count: reply.first,
            second_count: reply.second,
            ..Said::default()
        }
    }
}

impl From<raw::DeterminantReply> for Said {
    fn from(reply: raw::DeterminantReply) -> Said {
        Said {
            number: reply.number,
            place: reply.place,
            ..Said::default()
        }
    }
}

/// The answer of a call that is done, and what the buffers after the input hold
/// then.
type Done = (Said, Vec<Vec<u16>>);

/// Calls a proved function with the input and the buffers after it.
type Calling = fn(&Call, &[u16], &mut [Buffer]) -> Said;

/// The proved function of a service, and what this program knows of that service.
struct Function {
    service: Service,
    /// Returns an answer or a refusal.
    call: Calling,
    /// Returns the library's own reply, which has all numbers in a refusal too.
    raw: Calling,
    /// For p, d and a matrix that are not refused.
    done: fn(u64, usize, &Matrix) -> Done,
    /// The sample of a seed and a number.
    sample: fn(u64, u64) -> Sample,
    /// What has to hold of a sample besides equal answers for its matrix.
    further: fn(&Numbered) -> bool,
}

const FUNCTIONS: [Function; 4] = [
    Function {
        service: Service::Reduction,
        call: call_reduce,
        raw: raw_reduce,
        done: reduction,
        sample: sample::sample,
        further: reduction_multiplied_out,
    },
    Function {
        service: Service::SingleStep,
        call: call_step,
        raw: raw_step,
        done: single_step,
        sample: sample::sample,
        further: later_steps_agree,
    },
    Function {
        service: Service::PopovForm,
        call: call_popov,
        raw: raw_popov,
        done: popov_form,
        sample: sample::sample,
        further: |numbered| popov_form_multiplied_out(numbered) & pair_agrees(numbered),
    },
    Function {
        service: Service::Determinant,
        call: call_determinant,
        raw: raw_determinant,
        done: |p, d, a| (Said::default(), vec![det::determinant_places(p, d, a)]),
        sample: sample::square_sample,
        further: determinant_at_values,
    },
];

fn function(service: Service) -> &'static Function {
    let found = FUNCTIONS.iter().find(|f| f.service == service);
    found.expect("no proved function for this service")
}

/// The numbers n, m and d of a call.
fn shape(call: &Call) -> (usize, usize, usize) {
    (call.n as usize, call.m as usize, call.d as usize)
}

fn call_reduce(call: &Call, input: &[u16], buffers: &mut [Buffer]) -> Said {
    let (n, m, d) = shape(call);
    let [r, u, v] = lent(buffers);
    let answer = moorbesen::reduce(call.p, n, m, d, input, r, u, v);
    said(answer, |done| Said {
        rank: done.rank,
        first_count: done.count,
        rows: done.rows,
        ..Said::default()
    })
}

fn raw_reduce(call: &Call, input: &[u16], buffers: &mut [Buffer]) -> Said {
    let (n, m, d) = shape(call);
    let [r, u, v] = lent(buffers);
    raw::reduce(call.p, n, m, d, input, r, u, v).into()
}

fn call_step(call: &Call, input: &[u16], buffers: &mut [Buffer]) -> Said {
    let (n, m, d) = shape(call);
    let [r] = lent(buffers);
    let answer = moorbesen::step(call.p, n, m, d, input, r);
    said(answer, |first_count| Said {
        first_count,
        ..Said::default()
    })
}

fn raw_step(call: &Call, input: &[u16], buffers: &mut [Buffer]) -> Said {
    let (n, m, d) = shape(call);
    let [r] = lent(buffers);
    raw::step(call.p, n, m, d, input, r).into()
}

fn call_popov(call: &Call, input: &[u16], buffers: &mut [Buffer]) -> Said {
    let (n, m, d) = shape(call);
    let [r, u, v] = lent(buffers);
    let answer = moorbesen::popov(call.p, n, m, d, input, r, u, v);
    said(answer, |done| Said {
        rank: done.rank,
        first_count: done.first,
        second_count: done.second,
        ..Said::default()
    })
}

fn raw_popov(call: &Call, input: &[u16], buffers: &mut [Buffer]) -> Said {
    let (n, m, d) = shape(call);
    let [r, u, v] = lent(buffers);
    raw::popov(call.p, n, m, d, input, r, u, v).into()
}

fn call_determinant(call: &Call, input: &[u16], buffers: &mut [Buffer]) -> Said {
    let (n, m, d) = shape(call);
    let [r] = lent(buffers);
    let answer = moorbesen::determinant(call.p, n, m, d, input, r);
    said(answer, |()| Said::default())
}

fn raw_determinant(call: &Call, input: &[u16], buffers: &mut [Buffer]) -> Said {
    let (n, m, d) = shape(call);
    let [r] = lent(buffers);
    raw::determinant(call.p, n, m, d, input, r).into()
}

/// The contents of the buffers, lent to a call that takes so many.
fn lent<const MANY: usize>(buffers: &mut [Buffer]) -> [&mut [u16]; MANY] {
    let contents: Vec<&mut [u16]> = buffers.iter_mut().map(Buffer::content_mut).collect();
    contents.try_into().expect("a buffer too few or too many")
}

fn reduction(p: u64, d: usize, a: &Matrix) -> Done {
    let done = reduce::reduce(p, a);
    let said = Said {
        rank: done.rank,
        first_count: done.count,
        rows: done.row_list.iter().map(|row| 1 << (row - 1)).sum(),
        ..Said::default()
    };
    (said, with_transforms(d, &done.r, &done.u, &done.v))
}

fn single_step(p: u64, d: usize, a: &Matrix) -> Done {
    let (r, first_count) = reduce::single_step(p, a);
    let said = Said {
        first_count,
        ..Said::default()
    };
    (said, vec![r.to_places(d + 1)])
}

fn popov_form(p: u64, d: usize, a: &Matrix) -> Done {
    let done = popov::popov_form(p, a);
    let said = Said {
        rank: done.rank,
        first_count: done.first_count,
        second_count: done.second_count,
        ..Said::default()
    };
    (said, with_transforms(d, &done.p, &done.u, &done.v))
}

/// The buffers result, U and V.
fn with_transforms(d: usize, r: &Matrix, u: &Matrix, v: &Matrix) -> Vec<Vec<u16>> {
    let (w, n) = (d + 1, u.rows);
    vec![r.to_places(w), u.to_places(n * w), v.to_places(w)]
}

/// What a buffer holds before a call. No coefficient is as large, so a place
/// that was not written is seen in an accepted call too.
fn pattern(place: usize) -> u16 {
    65_522 + (place % 13) as u16
}

/// Places before and after each buffer, which no call may touch.
const GUARD: usize = 16;

/// A buffer between guards, filled with the pattern.
#[derive(PartialEq, Eq)]
struct Buffer {
    places: Vec<u16>,
}

impl Buffer {
    fn filled(length: usize) -> Buffer {
        Buffer {
            places: (0..length + 2 * GUARD).map(pattern).collect(),
        }
    }

    fn holding(content: &[u16]) -> Buffer {
        let mut buffer = Buffer::filled(content.len());
        buffer.places[GUARD..GUARD + content.len()].copy_from_slice(content);
        buffer
    }

    fn content(&self) -> &[u16] {
        &self.places[GUARD..self.places.len() - GUARD]
    }

    fn content_mut(&mut self) -> &mut [u16] {
        let end = self.places.len() - GUARD;
        &mut self.places[GUARD..end]
    }

    /// The first place where it differs from what it should hold.
    fn difference(&self, right: &Buffer) -> Option<String> {
        let t = (0..right.places.len()).find(|&t| self.places[t] != right.places[t])?;
        let place = t as isize - GUARD as isize;
        let outside = match place {
            _ if place < 0 => " (before the start)",
            _ if place >= self.content().len() as isize => " (behind the end)",
            _ => "",
        };
        Some(format!(
            "holds {} at place {place}{outside}, wanted {}",
            self.places[t], right.places[t]
        ))
    }
}

/// What a call said, and what its buffers hold after it.
struct Outcome {
    said: Said,
    input: Buffer,
    after: Vec<Buffer>,
}

/// Calls the proved program.
fn outcome(calling: Calling, call: &Call) -> Outcome {
    let input = Buffer::holding(&call.input);
    let mut after: Vec<Buffer> = call.lengths.iter().map(|&t| Buffer::filled(t)).collect();
    let said = calling(call, input.content(), &mut after);
    Outcome { said, input, after }
}

/// What this program answers.
fn wanted(call: &Call) -> Outcome {
    let (said, after) = match refuse::refusal(call) {
        Some(refusal) => {
            let said = Said {
                number: refusal.number as usize,
                place: refusal.place as usize,
                ..Said::default()
            };
            let untouched = call.lengths.iter().map(|&length| Buffer::filled(length));
            (said, untouched.collect())
        }
        None => {
            let (p, d, a) = call.matrix();
            let (said, contents) = (function(call.service).done)(p, d, &a);
            let written = contents.iter().map(|content| Buffer::holding(content));
            (said, written.collect())
        }
    };
    Outcome {
        said,
        input: Buffer::holding(&call.input),
        after,
    }
}

fn differences(found: &Outcome, wanted: &Outcome) -> Faults {
    let mut faults = Faults::new();
    if found.said != wanted.said {
        faults.push(format!("{:?}, wanted {:?}", found.said, wanted.said));
    }
    if found.input != wanted.input {
        faults.push("the input was written to".to_string());
    }
    for (i, (buffer, right)) in found.after.iter().zip(&wanted.after).enumerate() {
        if let Some(difference) = buffer.difference(right) {
            faults.push(format!("{} {difference}", ["result", "U", "V"][i]));
        }
    }
    faults
}

/// Prints what is wrong under the label, and returns whether nothing is.
fn none(label: &str, faults: Faults) -> bool {
    for fault in &faults {
        println!("{label}: {fault}");
    }
    faults.is_empty()
}

/// Makes one call both ways, prints what differs, and returns whether nothing
/// does.
fn agrees(label: &str, call: &Call) -> bool {
    let wanted = wanted(call);
    let function = function(call.service);
    let answered = differences(&outcome(function.call, call), &wanted);
    let replied = differences(&outcome(function.raw, call), &wanted);
    let same = none(label, answered) & none(&format!("{label}, raw reply"), replied);
    if !same {
        let &Call { p, n, m, d, .. } = call;
        println!("  {:?}, p={p} n={n} m={m} d={d}", call.service);
        println!("  buffers after the input: {:?}", call.lengths);
        match call.input.len() {
            0..=256 => println!("  input: {:?}", call.input),
            places => println!("  input: {places} places, made by seed and number"),
        }
    }
    same
}

/// Compares a matrix, with all buffers as the table says.
pub fn matrix_agrees(label: &str, service: Service, p: u64, d: usize, a: &Matrix) -> bool {
    agrees(label, &Call::of_matrix(service, p, d, a))
}

/// A sample with what repeats it.
struct Numbered {
    seed: u64,
    number: u64,
    sample: Sample,
    label: String,
}

/// How many agree and how many do not, and what was compared.
#[derive(Default)]
pub struct Tally {
    pub passed: u64,
    pub failed: u64,
    /// Samples that are not refused, so that there are results to compare.
    pub samples: u64,
    /// Those of them that are square.
    pub square: u64,
    /// Calls that are refused or next to being refused.
    pub refusals: u64,
}

impl Tally {
    fn add(&mut self, agrees: bool) {
        if agrees {
            self.passed += 1;
        } else {
            self.failed += 1;
        }
    }

    fn add_all(&mut self, other: &Tally) {
        self.passed += other.passed;
        self.failed += other.failed;
        self.samples += other.samples;
        self.square += other.square;
        self.refusals += other.refusals;
    }
}

/// Compares all refusal inputs and then samples 0 to count - 1 of the seed, each
/// with what further has to hold of it.
pub fn compare(service: Service, count: u64, seed: u64) -> Tally {
    let mut tally = Tally::default();
    for (number, input) in sample::refusal_inputs(service, seed).iter().enumerate() {
        let label = format!("refusal input {number} of seed {seed}, {}", input.label);
        tally.add(agrees(&label, &input.call));
        tally.refusals += 1;
    }
    let work = |number, tally: &mut Tally| {
        compare_sample(service, seed, number, tally);
        if service == Service::Determinant {
            compare_other_shape(seed, number, tally);
        }
        Ok(())
    };
    for part in workers::share(service.name(), count, work).expect("no comparison fails so") {
        tally.add_all(&part);
    }
    tally
}

fn compare_sample(service: Service, seed: u64, number: u64, tally: &mut Tally) {
    let Function {
        sample, further, ..
    } = function(service);
    let sample = sample(seed, number);
    let label = format!("sample {number} of seed {seed}, {:?}", sample.kind);
    let call = Call::of_matrix(service, sample.p, sample.d, &sample.a);
    if let Some(refusal) = refuse::refusal(&call) {
        tally.add(none(&label, vec![format!("no sample: {refusal:?}")]));
        return;
    }
    tally.samples += 1;
    tally.square += u64::from(call.n == call.m);
    let same = agrees(&label, &call);
    let numbered = Numbered {
        seed,
        number,
        sample,
        label,
    };
    tally.add(further(&numbered) && same);
}

/// The determinant of a sample of any shape, which is refused if that is not
/// square.
fn compare_other_shape(seed: u64, number: u64, tally: &mut Tally) {
    let Sample { kind, p, d, a } = sample::sample(seed, number);
    if a.rows != a.columns {
        let label = format!("sample {number} of seed {seed}, {kind:?}, not square");
        tally.add(matrix_agrees(&label, Service::Determinant, p, d, &a));
        tally.refusals += 1;
    }
}

/// U·A, V·R, U·V and V·U, and the other checks of a reduction.
fn reduction_multiplied_out(numbered: &Numbered) -> bool {
    let &Sample { p, d, ref a, .. } = &numbered.sample;
    let faults = check::check_reduction(p, d, a, &reduce::reduce(p, a));
    none(&numbered.label, faults)
}

/// The single step is compared at two more matrices of the sample's reduction:
/// one on the way, and the last, where the form is reached.
fn later_steps_agree(numbered: &Numbered) -> bool {
    let &Sample { p, d, ref a, .. } = &numbered.sample;
    let done = reduce::reduce(p, a);
    let some = numbered.number % (done.count + 1);
    let on_the_way = (0..some).fold(a.clone(), |matrix, _| reduce::single_step(p, &matrix).0);
    [(some, &on_the_way), (done.count, &done.r)]
        .iter()
        .all(|(steps, matrix)| {
            let label = format!("{}, after {steps} steps", numbered.label);
            matrix_agrees(&label, Service::SingleStep, p, d, matrix)
        })
}

/// U·A, V·P, U·V and V·U, and the other checks of a Popov form.
fn popov_form_multiplied_out(numbered: &Numbered) -> bool {
    let &Sample { p, d, ref a, .. } = &numbered.sample;
    let faults = check::check_popov(p, d, a, &popov::popov_form(p, a));
    none(&numbered.label, faults)
}

/// The determinant at values of x, and the other checks of it.
fn determinant_at_values(numbered: &Numbered) -> bool {
    let &Sample { p, d, ref a, .. } = &numbered.sample;
    let faults = check::check_determinant(p, d, a, &reduce::reduce(p, a), &det::determinant(p, a));
    none(&numbered.label, faults)
}

/// Both matrices of the pair of the same number are compared; and the proved
/// program's results for them are equal just if the matrices are equivalent.
fn pair_agrees(numbered: &Numbered) -> bool {
    let &Numbered { seed, number, .. } = numbered;
    let pair = sample::pair(seed, number);
    let label = format!("pair {number} of seed {seed}");
    let calls = [&pair.first, &pair.second]
        .map(|matrix| Call::of_matrix(Service::PopovForm, pair.p, pair.d, matrix));
    let same = calls.iter().all(|call| agrees(&label, call));
    let [first, second] = calls.map(|call| result(&call));
    none(&label, check::check_forms(&pair, &first, &second)) && same
}

/// The proved program's result buffer, read as a matrix.
fn result(call: &Call) -> Matrix {
    let (n, m, w) = (call.n as usize, call.m as usize, call.d as usize + 1);
    let found = outcome(function(call.service).call, call);
    Matrix::from_places(n, m, w, found.after[0].content())
}
