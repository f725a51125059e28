//! A case that differs, in full.

use crate::case::{Case, Left};
use oracle::limits::Limits;
use oracle::vectors::to_hex;

pub fn print(case: &Case, stated: &Left, left: &Left, again: &str) {
    let lent = &case.buffers;
    println!("differs: {}; again: {again}", case.operation.name());
    println!("  {:?}", case.limits);
    show_text("text 1", lent.first.inside());
    show_text("text 2", lent.second.inside());
    show("output lent", lent.output.inside());
    show("answer lent", lent.answer.inside());
    for (who, what) in [("stated", stated), ("library", left)] {
        println!("  {who}: number {}", what.number);
        show_words(what.buffers.answer.inside());
        show("answer", what.buffers.answer.inside());
        show("output", what.buffers.output.inside());
    }
    for (name, changed) in outside(stated, left) {
        if changed {
            println!("  {name}: a byte that the call may not write is changed");
        }
    }
}

/// Samples that do not reach what they have to.
pub fn print_chain(limits: &Limits, samples: &[Vec<u8>], again: &str) {
    println!("differs: a chain of samples; again: {again}");
    println!("  {limits:?}");
    for sample in samples {
        show_text("sample", sample);
    }
}

/// Whether what differs lies in a text or in a guard.
fn outside(stated: &Left, left: &Left) -> [(&'static str, bool); 4] {
    let (stated, left) = (&stated.buffers, &left.buffers);
    [
        ("text 1", stated.first != left.first),
        ("text 2", stated.second != left.second),
        (
            "around the output",
            stated.output.guards() != left.output.guards(),
        ),
        (
            "around the answer",
            stated.answer.guards() != left.answer.guards(),
        ),
    ]
}

fn show(name: &str, bytes: &[u8]) {
    println!("  {name}, {} bytes: {}", bytes.len(), to_hex(bytes));
}

fn show_text(name: &str, bytes: &[u8]) {
    show(name, bytes);
    let shown = |byte: &u8| match byte {
        b' '..=b'~' => char::from(*byte).to_string(),
        other => format!("<{other:02x}>"),
    };
    println!("    {}", bytes.iter().map(shown).collect::<String>());
}

fn show_words(answer: &[u8]) {
    let words = answer.chunks_exact(8).take(5);
    let words = words.filter_map(|word| Some(u64::from_le_bytes(word.try_into().ok()?)));
    let words: Vec<String> = words.map(|word| word.to_string()).collect();
    println!("  text, place, length, steps, yes: {}", words.join(" "));
}
