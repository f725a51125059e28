//! Vector files and the command line.

use oracle::vectors::{compare, from_hex, to_hex, Row};
use std::process::Command;

/// What a command prints.
fn printed(words: &[&str]) -> String {
    let output = Command::new(env!("CARGO_BIN_EXE_oracle"))
        .args(words)
        .output();
    String::from_utf8(output.unwrap().stdout).unwrap()
}

#[test]
fn a_right_row_passes_and_a_wrong_one_fails() {
    let right = "plain\t5b205d\t-\t2\t0\t0\t0\t2\t0\t0\t5b5d\n";
    let wrong = "plain\t5b205d\t-\t2\t0\t0\t0\t2\t0\t0\t5b5b\n";
    let broken = "plain\t5b2\t-\t2\t0\t0\t0\t2\t0\t0\t5b5d\n";
    assert_eq!(compare(right), (1, 0));
    assert_eq!(compare(wrong), (0, 1));
    assert_eq!(compare(broken), (0, 1));
    assert_eq!(
        compare(&["# header\n", right, wrong, right].concat()),
        (2, 1)
    );
}

#[test]
fn a_row_is_judged_by_its_own_limits() {
    let row = "plain\t5b5b5b5b5b5d5d5d5d5d\t-\t10\t6\t1\t4\t0\t0\t0\t-\t1024\t16\t4\t256";
    let deeper = "plain\t5b5b5b5b5b5d5d5d5d5d\t-\t10\t6\t1\t4\t0\t0\t0\t-\t1024\t16\t5\t256";
    assert_eq!(compare(row), (1, 0));
    assert_eq!(compare(deeper), (0, 1));
}

/// A row of `null` with a number, a set and what is lent.
fn row_of_null(number: u8, set: [u64; 4], lent: &str) -> String {
    let set = set.map(|limit| limit.to_string()).join("\t");
    format!("plain\t6e756c6c\t-\t3\t{number}\t0\t0\t0\t0\t0\t-\t{set}{lent}")
}

#[test]
fn a_limit_out_of_its_range_is_refused_with_zeros() {
    let ends = [(1_024, 16_384), (16, 512), (4, 32), (256, 65_536)];
    for (which, (least, most)) in ends.into_iter().enumerate() {
        let with = |number: u64| {
            let mut set = [1_024, 16, 4, 256];
            set[which] = number;
            compare(&row_of_null(18, set, ""))
        };
        for wrong in [least - 1, most + 1, 0, (1 << 32) + least, u64::MAX] {
            assert_eq!(with(wrong), (1, 0));
        }
        for right in [least, most] {
            assert_eq!(with(right), (0, 1));
        }
    }
}

#[test]
fn what_is_lent_too_short_is_refused_behind_a_limit_out_of_its_range() {
    for lent in ["\t-\tshort", "\t-\tanswer39"] {
        assert_eq!(compare(&row_of_null(1, [1_024, 16, 4, 256], lent)), (1, 0));
        assert_eq!(compare(&row_of_null(18, [1_024, 16, 3, 256], lent)), (1, 0));
        assert_eq!(compare(&row_of_null(1, [1_024, 16, 3, 256], lent)), (0, 1));
    }
}

#[test]
fn a_row_with_columns_that_are_not_known_fails() {
    for lent in ["\t-", "\t-\t", "\t-\tlong", "\t3\t-", "\t-\t-\t-"] {
        let row = row_of_null(1, [1_024, 16, 4, 256], lent);
        assert_eq!(compare(&row), (0, 1));
        assert_eq!(Row::parse(&row), None);
    }
    let long = "plain\t6e756c6c\t-\t4\t0\t0\t0\t4\t0\t0\t6e756c6c\t1024\t16\t4";
    assert_eq!(Row::parse(long), None);
}

#[test]
fn printed_rows_are_the_same_rows_again_and_pass() {
    for limits in [&[][..], &["1024", "16", "4", "256"]] {
        let rows = printed(&[&["cases", "3", "70", "all"], limits].concat());
        assert!(rows.lines().next().unwrap().ends_with("seed 3"));
        for line in rows.lines().skip(1) {
            assert_eq!(Row::parse(line).unwrap().to_string(), line);
        }
        assert_eq!(compare(&rows), (70, 0));
    }
}

#[test]
fn hexadecimal_digits_come_in_pairs_and_nothing_is_a_dash() {
    assert_eq!(from_hex("-"), Some(Vec::new()));
    assert_eq!(from_hex("00fF"), Some(vec![0, 255]));
    assert_eq!(from_hex("0"), None);
    assert_eq!(from_hex("0g"), None);
    assert_eq!(to_hex(&[]), "-");
    assert_eq!(to_hex(&[0, 255]), "00ff");
}
