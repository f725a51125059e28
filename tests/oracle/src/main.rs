//! The command line: see the README.

use oracle::generate;
use oracle::limits::Limits;
use oracle::operations::{Answer, Operation};
use oracle::suite;
use oracle::tally::tally;
use oracle::vectors::{self, Lent, Row};
use std::env;
use std::fs;
use std::io::{self, BufWriter, Write};
use std::path::Path;
use std::process::ExitCode;
use std::time::{Instant, SystemTime, UNIX_EPOCH};

const USAGE: &str = "\
oracle vectors FILE.tsv                          compares the rows of a vector file
oracle suite FOLDER                              compares the files of a folder with its expected.tsv
oracle answers FOLDER                            prints what becomes of them
oracle cases SEED COUNT OPERATION [LIMITS]       prints generated rows
oracle tally SEED COUNT OPERATION [LIMITS]       counts the numbers of generated rows
SEED is a number or `clock`, OPERATION one of the seven or `all`,
LIMITS a set: text bytes, values and forms, nesting, steps";

fn main() -> ExitCode {
    let words: Vec<String> = env::args().skip(1).collect();
    let words: Vec<&str> = words.iter().map(String::as_str).collect();
    let done = match words[..] {
        ["vectors", file] => fs::read_to_string(file).map(|text| verdict(vectors::compare(&text))),
        ["suite", folder] => suite::compare(Path::new(folder)).map(verdict),
        ["answers", folder] => suite::answers(Path::new(folder)).map(print_all),
        ["cases", ref rest @ ..] => plan(rest, cases),
        ["tally", ref rest @ ..] => plan(rest, tallies),
        _ => Err(io::Error::other(USAGE)),
    };
    done.unwrap_or_else(|error| {
        eprintln!("{error}");
        ExitCode::from(2)
    })
}

fn verdict((passed, failed): (usize, usize)) -> ExitCode {
    println!("{passed} passed, {failed} failed");
    ExitCode::from(u8::from(failed > 0))
}

fn print_all(lines: Vec<String>) -> ExitCode {
    lines.iter().for_each(|line| println!("{line}"));
    ExitCode::SUCCESS
}

/// What to generate.
struct Plan {
    seed: u64,
    count: u64,
    operations: Vec<Operation>,
    limits: Limits,
}

fn plan(words: &[&str], act: fn(&Plan) -> io::Result<()>) -> io::Result<ExitCode> {
    let plan = parse_plan(words).ok_or(io::Error::other(USAGE))?;
    match act(&plan) {
        // Whoever reads the rows may stop before the last one.
        Err(error) if error.kind() != io::ErrorKind::BrokenPipe => Err(error),
        _ => Ok(ExitCode::SUCCESS),
    }
}

fn parse_plan(words: &[&str]) -> Option<Plan> {
    let [seed, count, operation, ref limits @ ..] = *words else {
        return None;
    };
    Some(Plan {
        seed: if seed == "clock" {
            clock()
        } else {
            seed.parse().ok()?
        },
        count: count.parse().ok()?,
        operations: match operation {
            "all" => Operation::ALL.to_vec(),
            name => vec![Operation::named(name)?],
        },
        limits: Limits::parse(limits).filter(Limits::are_in_range)?,
    })
}

fn clock() -> u64 {
    let since = SystemTime::now().duration_since(UNIX_EPOCH);
    since.map_or(0, |since| since.as_nanos() as u64)
}

/// Prints rows, the operations taking turns.
fn cases(plan: &Plan) -> io::Result<()> {
    let mut out = BufWriter::new(io::stdout().lock());
    writeln!(out, "{}", vectors::header(&plan.limits, plan.seed))?;
    for index in 0..plan.count {
        let turn = index % plan.operations.len() as u64;
        let operation = plan.operations[turn as usize];
        let call = generate::call(plan.seed, index, operation, &plan.limits);
        let row = Row {
            operation,
            first: call.first,
            second: call.second,
            output: call.output,
            answer: Answer::default(),
            written: Vec::new(),
            limits: plan.limits,
            lent: Lent::AsPublished,
        };
        writeln!(out, "{}", row.answered())?;
    }
    out.flush()
}

fn tallies(plan: &Plan) -> io::Result<()> {
    let mut out = io::stdout().lock();
    writeln!(
        out,
        "seed {}, {} calls of each operation",
        plan.seed, plan.count
    )?;
    for operation in &plan.operations {
        let start = Instant::now();
        let tally = tally(plan.seed, plan.count, *operation, &plan.limits);
        let seconds = start.elapsed().as_secs_f64();
        let megabytes = tally.text_bytes as f64 / 1e6;
        write!(
            out,
            "{:7}{seconds:6.2} s{megabytes:8.1} MB ",
            operation.name()
        )?;
        for (number, count) in tally.numbers.iter().enumerate().filter(|(_, n)| **n > 0) {
            write!(out, " {number}: {count}")?;
        }
        match tally.yes {
            0 => writeln!(out)?,
            yes => writeln!(out, " (yes: {yes})")?,
        }
    }
    Ok(())
}
