//! What follows from the paper, over generated calls.

mod common;

use common::{ask, ask_at};
use oracle::generate::{self, Call};
use oracle::json;
use oracle::limits::Limits;
use oracle::operations::{operate, outcome, Operation, Texts};
use oracle::shape::{admits, below, join, shape_of, Shape};
use oracle::text_forms::{read_shape, write_shape};
use oracle::value::Value;

fn calls(seed: u64, count: u64, operation: Operation) -> impl Iterator<Item = Call> {
    (0..count).map(move |index| generate::call(seed, index, operation, &Limits::LARGEST))
}

/// Generated shapes of moderate size.
fn shapes(seed: u64, count: u64) -> Vec<Shape> {
    let texts = calls(seed, count, Operation::Below).flat_map(|call| [call.first, call.second]);
    let short = texts.filter(|text| text.len() < 500);
    short
        .filter_map(|text| read_shape(&text, &Limits::LARGEST).ok())
        .collect()
}

/// Generated values of moderate size.
fn values(seed: u64, count: u64) -> Vec<Value> {
    let texts = calls(seed, count, Operation::Plain).map(|call| call.first);
    let short = texts.filter(|text| text.len() < 500);
    short
        .filter_map(|text| json::read(&text, &Limits::LARGEST).ok())
        .collect()
}

#[test]
fn a_plain_document_is_no_longer_than_it_was_and_stays_as_it_is() {
    for call in calls(1, 5_000, Operation::Plain) {
        let (answer, written) = ask(Operation::Plain, &call.first, b"");
        if answer.number == 0 {
            assert!(written.len() <= call.first.len());
            assert_eq!(ask(Operation::Plain, &written, b"").1, written);
        }
    }
}

#[test]
fn a_call_writes_its_length_on_success_alone_and_nothing_else() {
    for operation in Operation::ALL {
        for index in 0..1_000 {
            let call = generate::call(2, index, operation, &Limits::SMALLEST);
            let texts = Texts {
                first: &call.first,
                second: &call.second,
                limits: &Limits::SMALLEST,
            };
            let mut output = vec![0xa5; call.output];
            let answer = operate(operation, texts, &mut output);
            let written = if answer.number == 0 {
                answer.length as usize
            } else {
                0
            };
            // No text that is written has the byte 0xa5 at its end.
            let kept = output
                .iter()
                .rev()
                .take_while(|byte| **byte == 0xa5)
                .count();
            assert_eq!(kept, call.output - written, "{call:?}");
        }
    }
}

#[test]
fn a_written_shape_is_read_as_itself() {
    for shape in shapes(3, 2_000) {
        let text = write_shape(&shape, &Limits::LARGEST).unwrap();
        assert_eq!(read_shape(&text, &Limits::LARGEST), Ok(shape));
    }
}

#[test]
fn the_order_is_an_order() {
    let shapes = shapes(4, 150);
    for a in &shapes {
        assert!(below(a, a));
        for b in &shapes {
            assert!(!(below(a, b) && below(b, a)) || a == b);
            for c in shapes.iter().take(40) {
                assert!(!(below(a, b) && below(b, c)) || below(a, c));
            }
        }
    }
}

#[test]
fn the_join_is_the_least_shape_above_both() {
    let shapes = shapes(5, 120);
    for a in &shapes {
        for b in &shapes {
            let joined = join(a.clone(), b.clone());
            assert!(below(a, &joined) && below(b, &joined));
            assert_eq!(joined, join(b.clone(), a.clone()));
            assert_eq!(below(a, b), joined == *b);
            for c in shapes.iter().take(30) {
                assert!(!(below(a, c) && below(b, c)) || below(&joined, c));
                let right = join(a.clone(), join(b.clone(), c.clone()));
                assert_eq!(join(joined.clone(), c.clone()), right);
            }
        }
    }
}

#[test]
fn a_shape_admits_a_value_exactly_where_the_shape_of_the_value_is_below_it() {
    let shapes = shapes(6, 300);
    for value in values(6, 600) {
        let own = shape_of(&value);
        assert!(admits(&own, &value));
        for shape in &shapes {
            assert_eq!(admits(shape, &value), below(&own, shape));
        }
    }
}

#[test]
fn a_reached_shape_admits_its_samples_in_any_order_and_lies_below_what_admits_them() {
    let others = shapes(7, 300);
    for samples in values(7, 3_000).chunks(4) {
        let reach = |shape: Shape, sample: &Value| join(shape, shape_of(sample));
        let reached = samples.iter().fold(Shape::default(), reach);
        let backwards = samples.iter().rev().fold(Shape::default(), reach);
        assert_eq!(reached, backwards);
        assert!(samples.iter().all(|sample| admits(&reached, sample)));
        for other in &others {
            let all = samples.iter().all(|sample| admits(other, sample));
            assert!(!all || below(&reached, other));
        }
    }
}

#[test]
fn a_reader_that_passes_is_never_stuck_and_gives_what_its_result_shape_admits() {
    let mut passed = 0;
    for call in calls(8, 12_000, Operation::Run) {
        let (inferred, shape) = ask(Operation::Infer, b"(shape)\n", &call.second);
        let (checked, result) = ask(Operation::Check, &call.first, &shape);
        if inferred.number != 0 || checked.number != 0 {
            continue;
        }
        let (ran, written) = ask(Operation::Run, &call.first, &call.second);
        assert!([0, 13, 14].contains(&ran.number), "{call:?}");
        if ran.number == 0 {
            // A result may be longer than a text that `admits` reads.
            let unbounded = Limits {
                text_bytes: usize::MAX,
                ..Limits::LARGEST
            };
            let value = json::read(&written, &unbounded).unwrap();
            let result = read_shape(&result, &Limits::LARGEST).unwrap();
            assert!(admits(&result, &value), "{call:?}");
            passed += 1;
        }
    }
    assert!(passed > 1_000);
}

#[test]
fn a_further_sample_widens_what_a_passing_reader_gives_or_loses_it_by_9_or_11() {
    let [mut widened, mut by_9, mut by_11] = [0; 3];
    for index in 0..2_000 {
        let limits = [Limits::LARGEST, Limits::SMALLEST][index as usize % 2];
        let at = |operation, first: &[u8], second: &[u8]| ask_at(&limits, operation, first, second);
        let mut reached = b"(shape)\n".to_vec();
        for sample in generate::samples(13, index, &limits) {
            let (inferred, further) = at(Operation::Infer, &reached, &sample);
            if inferred.number != 0 {
                continue;
            }
            let shape = read_shape(&reached, &limits).unwrap();
            for reader in generate::trial(13, index, &shape, &limits).readers {
                let (first, result) = at(Operation::Check, &reader, &reached);
                let (second, wider) = at(Operation::Check, &reader, &further);
                match (first.number, second.number) {
                    (0, 0) => {
                        assert!(at(Operation::Below, &result, &wider).0.yes, "{reader:?}");
                        widened += usize::from(result != wider);
                    }
                    (0, 9) => by_9 += 1,
                    (0, 11) => by_11 += 1,
                    (0, number) => panic!("lost by {number}: {reader:?}"),
                    _ => {}
                }
            }
            reached = further;
        }
    }
    assert!(
        widened > 1_000 && by_9 > 1_000 && by_11 > 10,
        "{widened} {by_9} {by_11}"
    );
}

#[test]
fn an_accepted_call_has_the_same_outcome_at_every_larger_set() {
    let between = Limits {
        text_bytes: 2_000,
        values: 40,
        nesting: 8,
        steps: 300,
    };
    for operation in Operation::ALL {
        let mut accepted = 0;
        for index in 0..1_000 {
            let call = generate::call(12, index, operation, &Limits::SMALLEST);
            let at = |limits: &Limits| {
                let texts = Texts {
                    first: &call.first,
                    second: &call.second,
                    limits,
                };
                outcome(operation, texts, call.output)
            };
            let smallest = at(&Limits::SMALLEST);
            if smallest.0.number == 0 {
                assert_eq!(at(&between), smallest, "{call:?}");
                assert_eq!(at(&Limits::LARGEST), smallest, "{call:?}");
                accepted += 1;
            }
        }
        assert!(accepted > 100, "{operation:?}");
    }
}

#[test]
fn every_number_comes_up_for_every_operation_that_has_it() {
    let numbers: [(Operation, &[u8]); 7] = [
        (Operation::Plain, &[0, 2, 3, 4, 5, 6, 15]),
        (Operation::Infer, &[0, 2, 3, 4, 5, 6, 7, 8, 11, 15]),
        (Operation::Join, &[0, 2, 7, 8, 11, 15]),
        (Operation::Below, &[0, 2, 7, 8]),
        (Operation::Admits, &[0, 2, 3, 4, 5, 6, 7, 8]),
        (Operation::Check, &[0, 2, 7, 8, 9, 10, 11, 15]),
        (Operation::Run, &[0, 2, 3, 4, 5, 6, 7, 8, 12, 13, 14, 15]),
    ];
    for (operation, wanted) in numbers {
        let tally = oracle::tally::tally(9, 2_000, operation, &Limits::LARGEST);
        let come = (0..16).filter(|number| tally.numbers[usize::from(*number)] > 0);
        assert_eq!(come.collect::<Vec<u8>>(), wanted, "{operation:?}");
    }
}

#[test]
fn a_seed_gives_the_same_calls_every_time() {
    let rows = |seed| -> Vec<Vec<u8>> {
        calls(seed, 50, Operation::Infer)
            .map(|call| call.second)
            .collect()
    };
    assert_eq!(rows(10), rows(10));
    assert_ne!(rows(10), rows(11));
}
