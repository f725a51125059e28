//! Makes generated calls of the library and compares all that they leave with
//! what the second implementation says: see the README.

mod buffer;
mod case;
mod chain;
mod demand;
mod library;
mod numbers;
mod report;
mod sets;
mod widening;
mod wrong;

use case::Case;
use library::{Callee, Known};
use oracle::generate::{self, Call, Random};
use oracle::operations::Operation;
use std::env;
use std::process::ExitCode;
use std::time::{Instant, SystemTime, UNIX_EPOCH};

const USAGE: &str = "run [SEED [COUNT [FIRST]]]: SEED is a number or `clock`";
/// How many cases that differ are printed.
const PRINTED: u64 = 20;
/// Each number that an operation gives has to come once in so many calls.
const SELDOM: u64 = 100;
/// Yes and no each have to come once in so many answers.
const RARE: u64 = 10;
/// How many rows of samples are chained.
const CHAINS: u64 = 4_000;
/// How many rows of samples demand 3 is tried with, and the fewest runs of
/// readers that passed which that has to come to.
const TRIALS: u64 = 2_000;
const RUNS: usize = 20_000;
/// How many rows of samples request Q-13 is tried with, and the fewest results
/// that have to be widened by further samples.
const FURTHER: u64 = 4_000;
const WIDENED: usize = 2_000;

/// Which calls to make.
struct Plan {
    seed: u64,
    /// of each operation; its own count where there is none
    count: Option<u64>,
    /// the index that the first call is generated from
    first: u64,
}

#[derive(Default)]
struct Verdict {
    passed: u64,
    failed: u64,
}

impl Verdict {
    fn count(&mut self, fine: bool) {
        self.passed += u64::from(fine);
        self.failed += u64::from(!fine);
    }
}

/// What came up for one operation.
#[derive(Default)]
struct Tally {
    numbers: [u64; 19],
    yes: u64,
    calls: u64,
    bytes: usize,
    longest: usize,
}

fn main() -> ExitCode {
    let words: Vec<String> = env::args().skip(1).collect();
    let Some(plan) = parse(&words) else {
        eprintln!("{USAGE}");
        return ExitCode::from(2);
    };
    println!("seed {}", plan.seed);
    let mut verdict = Verdict::default();
    find_wrong(&plan, &mut verdict);
    for known in &library::OPERATIONS {
        compare(&plan, known, &mut verdict);
    }
    powers_of_ten(&mut verdict);
    chains(&plan, &mut verdict);
    demand_3(&plan, &mut verdict);
    widening(&plan, &mut verdict);
    println!("{} passed, {} failed", verdict.passed, verdict.failed);
    ExitCode::from(u8::from(verdict.failed > 0))
}

fn parse(words: &[String]) -> Option<Plan> {
    let number = |index: usize, usual: u64| match words.get(index).map(String::as_str) {
        None => Some(usual),
        Some("clock") if index == 0 => Some(clock()),
        Some(word) => word.parse().ok(),
    };
    let plan = Plan {
        seed: number(0, 1)?,
        count: Some(number(1, 0)?).filter(|count| *count > 0),
        first: number(2, 0)?,
    };
    Some(plan).filter(|_| words.len() <= 3)
}

fn clock() -> u64 {
    let since = SystemTime::now().duration_since(UNIX_EPOCH);
    since.map_or(0, |since| since.as_nanos() as u64)
}

/// The cases of one index, all with its set. What is lent besides the texts has
/// random numbers of its own, so that the texts are those of the second
/// implementation's commands.
fn cases(plan: &Plan, index: u64, operation: Operation) -> Vec<Case> {
    let calls = generate::calls(plan.seed, index, operation, &sets::at(plan.seed, index));
    let handed = sets::handed(plan.seed, index);
    let mut random = Random::at(!plan.seed, index);
    let case = |call: &Call| Case::new(call, handed, &mut random);
    calls.iter().map(case).collect()
}

/// Holds the comparison to finding every callee that is wrong.
fn find_wrong(plan: &Plan, verdict: &mut Verdict) {
    for (what, operation, callee) in wrong::WRONG {
        let differs = |index| {
            let cases = cases(plan, index, operation);
            let mut differing = cases
                .iter()
                .filter(|case| case.left_by(callee) != case.stated());
            differing.next().is_some()
        };
        let found = (0..10_000).any(differs);
        if !found {
            println!("not found: {what}");
        }
        verdict.count(found);
    }
}

fn compare(plan: &Plan, known: &Known, verdict: &mut Verdict) {
    let operation = known.operation;
    let start = Instant::now();
    let mut tally = Tally::default();
    let mut index = plan.first;
    while tally.calls < plan.count.unwrap_or(known.calls) {
        for case in cases(plan, index, operation) {
            compare_one(&case, &mut tally, verdict, || {
                format!("tests/compare/run {} 1 {index}", plan.seed)
            });
        }
        index += 1;
    }
    println!(
        "{}: {} calls, {:.1} MB of texts, the longest {} bytes, {:.1} s",
        operation.name(),
        tally.calls,
        tally.bytes as f64 / 1e6,
        tally.longest,
        start.elapsed().as_secs_f64()
    );
    show_numbers(known, &tally, verdict);
}

fn compare_one(case: &Case, tally: &mut Tally, verdict: &mut Verdict, again: impl Fn() -> String) {
    let stated = case.stated();
    let left = case.left_by(library::call);
    let fine = stated == left;
    verdict.count(fine);
    if !fine && verdict.failed <= PRINTED {
        report::print(case, &stated, &left, &again());
    }
    let length = case.buffers.first.inside().len() + case.buffers.second.inside().len();
    tally.numbers[stated.number as usize] += 1;
    tally.yes += u64::from(stated.number == 0 && stated.buffers.answer.inside()[32] == 1);
    tally.calls += 1;
    tally.bytes += length;
    tally.longest = tally.longest.max(length);
}

/// Prints how often each number came, and fails on one that came seldom: then
/// the calls say little of it. A few calls say nothing of that.
fn show_numbers(known: &Known, tally: &Tally, verdict: &mut Verdict) {
    let name = known.operation.name();
    let often = tally.calls >= 100 * SELDOM;
    for number in known.numbers {
        let count = tally.numbers[*number];
        println!("{name:8}{number:2}: {count}");
        if often {
            verdict.count(count >= tally.calls / SELDOM);
        }
    }
    if known.says() {
        let answers = tally.numbers[0];
        let (yes, no) = (tally.yes, answers - tally.yes);
        println!("{name:8}yes: {yes}, no: {no}");
        if often {
            verdict.count(yes.min(no) >= answers / RARE);
        }
    }
}

/// Writes the numbers at each power of ten. A callee that is wrong has to be
/// found first, and every case has to be an accepted call.
fn powers_of_ten(verdict: &mut Verdict) {
    let cases = numbers::cases();
    let wrong = |case: &Case| case.left_by(wrong::ONE_SHORT) != case.stated();
    verdict.count(cases.iter().any(wrong));
    verdict.count(cases.len() == numbers::CASES);
    let mut tally = Tally::default();
    for case in &cases {
        compare_one(case, &mut tally, verdict, || "tests/compare/run".into());
    }
    println!("powers of ten: {} calls", tally.calls);
}

/// Infers the shapes of rows of samples, in several orders. A callee that is
/// wrong has to be found first.
fn chains(plan: &Plan, verdict: &mut Verdict) {
    let start = Instant::now();
    let count = plan.count.unwrap_or(CHAINS).min(CHAINS);
    let set = |index| sets::at(plan.seed, index);
    let samples = |index| generate::samples(plan.seed, index, &set(index));
    let is_fine = |callee: Callee, index: u64, tally: &mut chain::Tally| {
        let random = Random::at(!plan.seed, index);
        chain::is_fine(callee, &set(index), &samples(index), random, tally)
    };
    let mut ignored = chain::Tally::default();
    verdict.count((0..100).any(|index| !is_fine(wrong::FORGETFUL, index, &mut ignored)));
    let mut tally = chain::Tally::default();
    for index in plan.first..plan.first + count {
        let fine = is_fine(library::call, index, &mut tally);
        verdict.count(fine);
        if !fine && verdict.failed <= PRINTED {
            let again = format!("tests/compare/run {} 1 {index}", plan.seed);
            report::print_chain(&set(index), &samples(index), &again);
        }
    }
    println!(
        "chains: {count}, {} samples accepted, {} refused, {} orders, {:.1} s",
        tally.accepted,
        tally.refused,
        tally.orders,
        start.elapsed().as_secs_f64()
    );
}

/// Tries demand 3 through the library's calls. Callees that are wrong have to
/// be found first.
fn demand_3(plan: &Plan, verdict: &mut Verdict) {
    let start = Instant::now();
    let mut ignored = demand::Tally::default();
    for wrong in [
        wrong::FORGETFUL,
        wrong::PASSES_EVERY_READER,
        wrong::RUNS_TO_NULL,
    ] {
        let mut indices = 0..200;
        verdict.count(
            indices.any(|index| demand::trial(wrong, plan.seed, index, &mut ignored).is_err()),
        );
    }
    let count = plan.count.unwrap_or(TRIALS).min(TRIALS);
    let mut tally = demand::Tally::default();
    for index in plan.first..plan.first + count {
        let tried = demand::trial(library::call, plan.seed, index, &mut tally);
        verdict.count(tried.is_ok());
        if let Err(why) = tried {
            println!(
                "demand 3: {why}; again: tests/compare/run {} 1 {index}",
                plan.seed
            );
        }
    }
    let seconds = start.elapsed().as_secs_f64();
    println!("demand 3: {count} rows of samples, {seconds:.1} s");
    show_demand_3(&tally, count == TRIALS, verdict);
}

/// Prints what came of demand 3. All trials have to come to many runs, and to
/// every number that a run may have.
fn show_demand_3(tally: &demand::Tally, all: bool, verdict: &mut Verdict) {
    println!(
        "demand 3: {} samples accepted, {} refused; {} readers passed, {} not",
        tally.accepted, tally.refused, tally.passed, tally.not_passed,
    );
    println!(
        "demand 3: {} runs of readers that passed; {} documents not admitted",
        tally.run(),
        tally.not_admitted
    );
    for number in [0, 1, 13, 14, 15] {
        println!("demand 3 {number:2}: {}", tally.runs[number]);
        if all {
            verdict.count(tally.runs[number] > 0);
        }
    }
    if all {
        verdict.count(tally.run() >= RUNS);
    }
}

/// Tries request Q-13 through the library's calls. Callees that are wrong have
/// to be found first.
fn widening(plan: &Plan, verdict: &mut Verdict) {
    let start = Instant::now();
    let mut ignored = widening::Tally::default();
    for wrong in [
        wrong::FORGETFUL,
        wrong::PASSES_EVERY_READER,
        wrong::TEN_FOR_NINE,
    ] {
        let mut indices = 0..200;
        verdict.count(
            indices.any(|index| widening::trial(wrong, plan.seed, index, &mut ignored).is_err()),
        );
    }
    let count = plan.count.unwrap_or(FURTHER).min(FURTHER);
    let mut tally = widening::Tally::default();
    for index in plan.first..plan.first + count {
        let tried = widening::trial(library::call, plan.seed, index, &mut tally);
        verdict.count(tried.is_ok());
        if let Err(why) = tried {
            println!(
                "widening: {why}; again: tests/compare/run {} 1 {index}",
                plan.seed
            );
        }
    }
    let seconds = start.elapsed().as_secs_f64();
    println!("widening: {count} rows of samples, {seconds:.1} s");
    show_widening(&tally, count == FURTHER, verdict);
}

/// Prints what came of request Q-13. All trials have to come to many results
/// that are widened, and to every number that a reader may be lost by.
fn show_widening(tally: &widening::Tally, all: bool, verdict: &mut Verdict) {
    println!(
        "widening: {} results widened, {} kept",
        tally.widened, tally.kept
    );
    for number in [1, 9, 11, 15] {
        println!("widening {number:2}: {}", tally.lost[number]);
        if all {
            verdict.count(tally.lost[number] > 0);
        }
    }
    if all {
        verdict.count(tally.widened >= WIDENED);
    }
}
