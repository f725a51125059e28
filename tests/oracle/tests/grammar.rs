//! The place of 3 against the grammars of RFC 8259 and RFC 3629, written as
//! rules and followed by an Earley recognizer. Its sets run empty exactly
//! behind the first byte after which no JSON text could follow.

mod common;

use common::ask;
use oracle::generate;
use oracle::limits::Limits;
use oracle::operations::Operation;
use std::collections::HashSet;

/// A name and what it may stand for. In an alternative `'ab` are bytes and
/// `%30-39` is a range of bytes; anything else is a name.
type Rule = (&'static str, &'static [&'static str]);

const RULES: &[Rule] = &[
    ("text", &["ws value ws"]),
    ("ws", &["", "%20 ws", "%09 ws", "%0A ws", "%0D ws"]),
    (
        "value",
        &[
            "'null", "'true", "'false", "object", "array", "number", "string",
        ],
    ),
    ("object", &["'{ ws '}", "'{ ws members '}"]),
    ("members", &["member", "member ', ws members"]),
    ("member", &["string ws ': ws value ws"]),
    ("array", &["'[ ws ']", "'[ ws elements ']"]),
    ("elements", &["value ws", "value ws ', ws elements"]),
    ("number", &["minus int frac exp"]),
    ("minus", &["", "'-"]),
    ("int", &["'0", "%31-39 any-digits"]),
    ("frac", &["", "'. digit any-digits"]),
    ("exp", &["", "e sign digit any-digits"]),
    ("e", &["'e", "'E"]),
    ("sign", &["", "'+", "'-"]),
    ("digit", &["%30-39"]),
    ("any-digits", &["", "digit any-digits"]),
    ("string", &["%22 characters %22"]),
    ("characters", &["", "character characters"]),
    (
        "character",
        &[
            "%20-21",
            "%23-5B",
            "%5D-7F",
            "utf8-2",
            "utf8-3",
            "utf8-4",
            "%5C escaped",
        ],
    ),
    (
        "escaped",
        &["%22", "%5C", "%2F", "'b", "'f", "'n", "'r", "'t", "'u unit"],
    ),
    (
        "unit",
        &["not-d hex hex hex", "d %30-37 hex hex", "high '\\u low"],
    ),
    ("high", &["d %38-39 hex hex", "d a-or-b hex hex"]),
    ("low", &["d c-to-f hex hex"]),
    ("hex", &["digit", "a-or-b", "c-to-f"]),
    (
        "not-d",
        &["digit", "a-or-b", "'c", "'C", "%65-66", "%45-46"],
    ),
    ("d", &["'d", "'D"]),
    ("a-or-b", &["%61-62", "%41-42"]),
    ("c-to-f", &["%63-66", "%43-46"]),
    ("utf8-2", &["%C2-DF tail"]),
    (
        "utf8-3",
        &[
            "%E0 %A0-BF tail",
            "%E1-EC tail tail",
            "%ED %80-9F tail",
            "%EE-EF tail tail",
        ],
    ),
    (
        "utf8-4",
        &[
            "%F0 %90-BF tail tail",
            "%F1-F3 tail tail tail",
            "%F4 %80-8F tail tail",
        ],
    ),
    ("tail", &["%80-BF"]),
];

#[derive(Clone, Copy)]
enum Symbol {
    Range(u8, u8),
    Name(usize),
}

/// The alternatives of every rule.
type Grammar = Vec<Vec<Vec<Symbol>>>;

/// A rule, its alternative, how many symbols are behind it, where it began.
type Item = (usize, usize, usize, usize);

fn grammar() -> Grammar {
    let alternatives = |rule: &Rule| rule.1.iter().map(|words| symbols(words)).collect();
    RULES.iter().map(alternatives).collect()
}

fn symbols(words: &str) -> Vec<Symbol> {
    words.split_whitespace().flat_map(symbol).collect()
}

fn symbol(word: &str) -> Vec<Symbol> {
    let byte = |digits: &str| u8::from_str_radix(digits, 16).unwrap();
    if let Some(bytes) = word.strip_prefix('\'') {
        return bytes
            .bytes()
            .map(|byte| Symbol::Range(byte, byte))
            .collect();
    }
    if let Some(range) = word.strip_prefix('%') {
        let (low, high) = range.split_once('-').unwrap_or((range, range));
        return vec![Symbol::Range(byte(low), byte(high))];
    }
    let rule = RULES.iter().position(|(name, _)| *name == word);
    vec![Symbol::Name(rule.unwrap())]
}

/// The symbol that an item waits for.
fn awaited(grammar: &Grammar, item: &Item) -> Option<Symbol> {
    let (rule, alternative, behind, _) = *item;
    grammar[rule][alternative].get(behind).copied()
}

/// The items of a set whose symbol fits, moved past it.
fn moved(grammar: &Grammar, set: &HashSet<Item>, fits: impl Fn(Symbol) -> bool) -> Vec<Item> {
    let waiting = set
        .iter()
        .filter(|item| awaited(grammar, item).is_some_and(&fits));
    waiting.map(past).collect()
}

fn past((rule, alternative, behind, from): &Item) -> Item {
    (*rule, *alternative, behind + 1, *from)
}

/// The items that follow from the ones at a position, to a fixed point.
fn close(grammar: &Grammar, sets: &[HashSet<Item>], kernel: Vec<Item>, at: usize) -> HashSet<Item> {
    let mut set: HashSet<Item> = HashSet::new();
    let mut todo = kernel;
    while let Some(item) = todo.pop() {
        if !set.insert(item) {
            continue;
        }
        let (rule, _, _, from) = item;
        match awaited(grammar, &item) {
            Some(Symbol::Name(next)) => {
                todo.extend((0..grammar[next].len()).map(|other| (next, other, 0, at)));
                // What stands for nothing may have been completed here already.
                if nullable(grammar, next) {
                    todo.push(past(&item));
                }
            }
            Some(Symbol::Range(..)) => {}
            None => {
                let origin = if from == at { &set } else { &sets[from] };
                let fits = |symbol| matches!(symbol, Symbol::Name(next) if next == rule);
                todo.extend(moved(grammar, origin, fits));
            }
        }
    }
    set
}

/// Rules that may stand for nothing do so by an empty alternative.
fn nullable(grammar: &Grammar, rule: usize) -> bool {
    grammar[rule].iter().any(|symbols| symbols.is_empty())
}

/// The place of 3, or none where the bytes are a JSON text.
fn broken_at(grammar: &Grammar, bytes: &[u8]) -> Option<usize> {
    let mut sets = vec![close(grammar, &[], vec![(0, 0, 0, 0)], 0)];
    for (at, byte) in bytes.iter().enumerate() {
        let fits =
            |symbol| matches!(symbol, Symbol::Range(low, high) if (low..=high).contains(byte));
        let kernel = moved(grammar, &sets[at], fits);
        if kernel.is_empty() {
            return Some(at);
        }
        let next = close(grammar, &sets, kernel, at + 1);
        sets.push(next);
    }
    let whole = (0, 0, grammar[0][0].len(), 0);
    (!sets[bytes.len()].contains(&whole)).then_some(bytes.len())
}

#[track_caller]
fn agrees(grammar: &Grammar, document: &[u8]) {
    let (answer, _) = ask(Operation::Plain, document, b"");
    let broken = broken_at(grammar, document).map(|place| place as u64);
    let agreed = match answer.number {
        0 => broken.is_none(),
        3 => broken == Some(answer.place),
        // The limits are judged before a later break of the grammar.
        _ => broken.is_none_or(|place| place > answer.place),
    };
    assert!(
        agreed,
        "{}: {answer:?}, {broken:?}",
        document.escape_ascii()
    );
}

#[test]
fn short_rows_of_bytes_break_where_the_grammar_says() {
    let grammar = grammar();
    let bytes = b"[]{},:\"\\nua0-.eD8 ";
    let mut rows: Vec<Vec<u8>> = vec![Vec::new()];
    for _ in 0..3 {
        let longer = rows
            .iter()
            .flat_map(|row| bytes.map(|byte| [&row[..], &[byte]].concat()));
        rows = longer.collect();
        rows.iter().for_each(|row| agrees(&grammar, row));
    }
}

#[test]
fn every_byte_behind_a_beginning_breaks_where_the_grammar_says() {
    let grammar = grammar();
    let beginnings: [&[u8]; 26] = [
        b"",
        b"[",
        b"{",
        b"[1",
        b"[0",
        b"{\"a\"",
        b"{\"a\":",
        b"{\"a\":1",
        b"{\"a\":1,",
        b"-",
        b"1.",
        b"1.5",
        b"1e",
        b"1e+",
        b"\"",
        b"\"\\",
        b"\"\\u",
        b"\"\\ud",
        b"\"\\uD8",
        b"\"\\uD800",
        b"\"\\uD800\\",
        b"\"\\uD800\\u",
        b"\"\\uD800\\uD",
        b"\"\\uD800\\uDc",
        b"tr",
        b"1 ",
    ];
    for beginning in beginnings {
        for byte in 0..=255 {
            agrees(&grammar, &[beginning, &[byte]].concat());
        }
    }
}

#[test]
fn every_byte_behind_a_head_byte_breaks_where_the_grammar_says() {
    let grammar = grammar();
    for (head, byte) in (0xc0..=0xff).flat_map(|head| (0..=255).map(move |byte| (head, byte))) {
        agrees(&grammar, &[b'"', head, byte]);
    }
}

#[test]
fn generated_documents_break_where_the_grammar_says() {
    let grammar = grammar();
    for index in 0..6_000 {
        let call = generate::call(11, index, Operation::Plain, &Limits::LARGEST);
        if call.first.len() <= 100 {
            agrees(&grammar, &call.first);
        }
    }
}
