//! Samples, pairs and refusal inputs through every check.

use second::check;
use second::popov;
use second::refuse::{self, SERVICES};
use second::sample;

const SAMPLES: u64 = 4000;

#[test]
fn samples_pass_all_checks() {
    for number in 0..SAMPLES {
        let sample = sample::sample(2, number);
        let faults = check::check_sample(&sample);
        assert!(faults.is_empty(), "{number}: {faults:?} {sample:?}");
    }
}

#[test]
fn pairs_have_equal_popov_forms_just_if_equivalent() {
    for number in 0..SAMPLES {
        let pair = sample::pair(3, number);
        let faults = check::check_pair(&pair);
        assert!(faults.is_empty(), "{number}: {faults:?} {pair:?}");
    }
}

#[test]
fn popov_form_of_a_popov_form_is_itself() {
    for number in 0..SAMPLES / 4 {
        let sample = sample::sample(4, number);
        let once = popov::popov_form(sample.p, &sample.a).p;
        let twice = popov::popov_form(sample.p, &once);
        assert_eq!(once, twice.p);
        assert_eq!((twice.first_count, twice.second_count), (0, 0));
    }
}

#[test]
fn all_matrices_of_small_shapes() {
    for (p, n, m, d) in [
        (2u64, 2, 2, 2),
        (2, 3, 2, 1),
        (2, 3, 3, 0),
        (3, 2, 2, 1),
        (2, 3, 1, 2),
        (2, 1, 3, 2),
    ] {
        let places = n * m * (d + 1);
        for mut code in 0..p.pow(places as u32) {
            let mut input = vec![0; places];
            for place in &mut input {
                *place = (code % p) as u16;
                code /= p;
            }
            let a = second::matrix::Matrix::from_places(n, m, d + 1, &input);
            let sample = sample::Sample {
                kind: sample::Kind::Dense,
                p,
                d,
                a,
            };
            let faults = check::check_sample(&sample);
            assert!(faults.is_empty(), "{faults:?} {sample:?}");
        }
    }
}

#[test]
fn refusal_inputs_have_their_answers() {
    for service in SERVICES {
        let mut seen = [0; 7];
        for input in sample::refusal_inputs(service, 5) {
            let answer = refuse::refusal(&input.call);
            assert_eq!(answer, input.answer, "{} {:?}", input.label, input.call);
            seen[answer.map_or(0, |refusal| refusal.number as usize)] += 1;
        }
        for (number, &times) in seen.iter().enumerate() {
            let arises = number != 4 || service == refuse::Service::Determinant;
            assert_eq!(times > 0, arises, "{service:?}, number {number}");
        }
    }
}
