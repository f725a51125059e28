//! Files that hold a document each: `plain` over them, compared with the
//! folder's `expected.tsv` (file, RFC 8259's verdict, number, place, length,
//! source), or printed.

use crate::limits::Limits;
use crate::operations::{outcome, Answer, Operation, Texts};
use crate::vectors::to_hex;
use std::fs;
use std::io;
use std::path::Path;

/// Compares every file of a folder; gives how many passed and failed.
pub fn compare(folder: &Path) -> io::Result<(usize, usize)> {
    let (mut passed, mut failed) = (0, 0);
    for line in rows(folder)? {
        match judge(folder, &line) {
            Ok(()) => passed += 1,
            Err(difference) => {
                failed += 1;
                println!("expected {line}\nhere     {difference}");
            }
        }
    }
    Ok((passed, failed))
}

/// A line for each file: its name, the number and the place, or 0, the length
/// and the bytes written in hexadecimal.
pub fn answers(folder: &Path) -> io::Result<Vec<String>> {
    let files = rows(folder)?;
    let files = files.iter().filter_map(|line| line.split('\t').next());
    files.map(|file| answered(folder, file)).collect()
}

fn answered(folder: &Path, file: &str) -> io::Result<String> {
    let bytes = fs::read(folder.join(file))?;
    Ok(match rewrite(&bytes) {
        (Answer { number: 0, .. }, written) => {
            format!("{file} 0 {} {}", written.len(), to_hex(&written))
        }
        (answer, _) => format!("{file} {} {}", answer.number, answer.place),
    })
}

/// The rows of a folder's list of files.
fn rows(folder: &Path) -> io::Result<Vec<String>> {
    let expected = fs::read_to_string(folder.join("expected.tsv"))?;
    let lines = expected.lines().skip(1).filter(|line| !line.is_empty());
    Ok(lines.map(str::to_string).collect())
}

fn judge(folder: &Path, line: &str) -> Result<(), String> {
    let columns: Vec<&str> = line.split('\t').collect();
    let [file, _, number, place, length, ..] = columns[..] else {
        return Err("no row".to_string());
    };
    let bytes = fs::read(folder.join(file)).map_err(|error| error.to_string())?;
    let (answer, written) = rewrite(&bytes);
    let here = [u64::from(answer.number), answer.place, answer.length];
    let wanted = [number, place, length].map(|column| column.parse::<u64>().ok());
    // A rewritten document is plain already, and no longer than it was.
    let settled = answer.number != 0 || is_plain(&written);
    if here.map(Some) == wanted && settled {
        return Ok(());
    }
    Err(format!("{here:?}, plain again: {settled}"))
}

fn is_plain(bytes: &[u8]) -> bool {
    rewrite(bytes).1 == bytes
}

fn rewrite(bytes: &[u8]) -> (Answer, Vec<u8>) {
    let texts = Texts {
        first: bytes,
        second: &[],
        limits: &Limits::LARGEST,
    };
    outcome(Operation::Plain, texts, bytes.len())
}
