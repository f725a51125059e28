//! Checking and running readers, with the examples of the settled readings.

mod common;

use common::*;
use oracle::operations::Operation::*;

#[test]
fn check_judges_the_parts_of_a_form_before_the_form_itself() {
    let each = b"(each (it 0) (int (field \"a\" (it 0))))";
    refuses(Check, each, b"(shape int)", (10, 1, 18));
    refuses(Check, b"(each (it 0) (yes))", b"(shape int)", (9, 1, 0));
    refuses(
        Check,
        b"(if (num 1) (int (it 0)) (no))",
        b"(shape text)",
        (9, 1, 12),
    );
    refuses(
        Check,
        b"(if (num 1) (yes) (no))",
        b"(shape text)",
        (9, 1, 0),
    );
}

#[test]
fn each_without_list_gives_a_list_of_the_shape_of_its_result() {
    checks(
        b"(each (it 0) (num 1))",
        b"(shape null)",
        b"(shape list\n (shape int))\n",
    );
    checks(
        b"(each (it 0) (keep (it 0)))",
        b"(shape null)",
        b"(shape list\n (shape))\n",
    );
}

#[test]
fn nothing_passes_every_conversion_and_has_no_member() {
    checks(b"(int (it 0))", b"(shape)", b"(shape int)\n");
    checks(b"(dec (it 0))", b"(shape)", b"(shape int dec)\n");
    checks(b"(bool (it 0))", b"(shape)", b"(shape bool)\n");
    checks(b"(text (it 0))", b"(shape)", b"(shape text)\n");
    checks(b"(count (it 0))", b"(shape)", b"(shape int)\n");
    checks(
        b"(if (keep (it 0)) (num 1) (none))",
        b"(shape)",
        b"(shape null int)\n",
    );
    refuses(
        Check,
        b"(keep (field \"a\" (it 0)))",
        b"(shape)",
        (10, 1, 6),
    );
}

#[test]
fn field_wants_a_record_or_null_before_it_wants_the_name() {
    let reader = b"(keep (field \"a\" (it 0)))";
    refuses(Check, reader, b"(shape int rec)", (9, 1, 6));
    refuses(
        Check,
        reader,
        b"(shape null text rec (member \"a\" (shape)))",
        (9, 1, 6),
    );
    refuses(Check, reader, b"(shape null rec)", (10, 1, 6));
    refuses(Check, reader, b"(shape null)", (10, 1, 6));
    refuses(Check, reader, b"(shape rec)", (10, 1, 6));
    checks(
        reader,
        b"(shape rec (member \"a\" (shape text)))",
        b"(shape text)\n",
    );
}

#[test]
fn dec_gives_both_kinds_whatever_was_there() {
    checks(b"(dec (it 0))", b"(shape int)", b"(shape int dec)\n");
    refuses(Check, b"(int (it 0))", b"(shape int dec)", (9, 1, 0));
}

#[test]
fn when_cuts_the_shape_in_its_first_result_and_takes_the_kinds_out_in_its_second() {
    let all = b"(shape null int dec list rec (shape bool) (member \"a\" (shape)))";
    let cases: [(&[u8], &[u8]); 6] = [
        (
            b"(when int (it 0) (keep (it 0)) (none))",
            b"(shape null int)\n",
        ),
        (
            b"(when num (it 0) (keep (it 0)) (none))",
            b"(shape null int dec)\n",
        ),
        (
            b"(when list (it 0) (keep (it 0)) (none))",
            b"(shape null list\n (shape bool))\n",
        ),
        (
            b"(when rec (it 0) (none) (keep (it 0)))",
            b"(shape null int dec list\n (shape bool))\n",
        ),
        (
            b"(when text (it 0) (keep (it 0)) (none))",
            b"(shape null)\n",
        ),
        (
            b"(when num (it 0) (none) (keep (it 0)))",
            b"(shape null list rec\n (shape bool)\n (member \"a\"\n  (shape)))\n",
        ),
    ];
    for (reader, wanted) in cases {
        checks(reader, all, wanted);
    }
    let second = b"(when int (it 0) (none) (keep (it 0)))";
    checks(second, b"(shape int dec)", b"(shape null int dec)\n");
    checks(second, b"(shape int)", b"(shape null)\n");
}

#[test]
fn pack_writes_its_members_in_its_own_order_and_its_shape_in_byte_order() {
    let reader = b"(pack \"b\" (num 1.0) \"a\" (str \"\\u0061\"))";
    runs(reader, b"null", b"{\"b\":1.0,\"a\":\"a\"}", 3);
    let shape = b"(shape rec\n (member \"a\"\n  (shape text))\n (member \"b\"\n  (shape int)))\n";
    checks(reader, b"(shape)", shape);
    runs(b"(pack)", b"null", b"{}", 1);
}

#[test]
fn a_missing_member_reads_as_null() {
    runs(b"(keep (field \"a\" (it 0)))", b"{}", b"null", 3);
    runs(b"(count (field \"a\" (it 0)))", b"{}", b"0", 3);
    runs(b"(each (field \"a\" (it 0)) (yes))", b"{}", b"[]", 3);
}

#[test]
fn a_member_gains_null_where_its_place_has_null() {
    let reader = b"(keep (field \"b\" (field \"a\" (it 0))))";
    let a = |inner: &str| format!("(shape rec (member \"a\" {inner}))").into_bytes();
    checks(
        reader,
        &a("(shape null rec (member \"b\" (shape int)))"),
        b"(shape null int)\n",
    );
    checks(
        reader,
        &a("(shape null rec (member \"b\" (shape)))"),
        b"(shape null)\n",
    );
    checks(
        reader,
        &a("(shape rec (member \"b\" (shape int)))"),
        b"(shape int)\n",
    );
    refuses(Check, reader, &a("(shape null)"), (10, 1, 6));
}

#[test]
fn field_reads_null_through_null() {
    let reader = b"(keep (field \"b\" (field \"a\" (it 0))))";
    for document in [b"{}".as_slice(), b"null", b"{\"a\":null}", b"{\"a\":{}}"] {
        runs(reader, document, b"null", 4);
    }
    runs(reader, b"{\"a\":{\"b\":[]}}", b"[]", 4);
    refuses(Run, reader, b"{\"a\":[]}", (12, 1, 6));
    refuses(Run, reader, b"0", (12, 1, 17));
}

#[test]
fn run_is_stuck_at_the_form_that_does_not_take_the_value() {
    refuses(Run, b"(keep (field \"a\" (it 0)))", b"\"\"", (12, 1, 6));
    refuses(Run, b"(int (it 0))", b"1.01", (12, 1, 0));
    refuses(Run, b"(bool (it 0))", b"null", (12, 1, 0));
    refuses(Run, b"(text (it 0))", b"1", (12, 1, 0));
    refuses(Run, b"(count (it 0))", b"{}", (12, 1, 0));
    refuses(
        Run,
        b"(each (it 0) (int (field \"a\" (it 0))))",
        b"1",
        (12, 1, 0),
    );
    refuses(Run, b"(if (none) (int (it 0)) (no))", b"null", (12, 1, 0));
    runs(b"(dec (it 0))", b"1", b"1", 2);
}

#[test]
fn only_the_chosen_branch_runs() {
    runs(b"(if (yes) (num 1) (int (it 0)))", b"null", b"1", 3);
    runs(b"(if (no) (int (it 0)) (num 2))", b"null", b"2", 3);
    runs(b"(when int (it 0) (num 1) (num 2))", b"1.5", b"2", 3);
    runs(b"(when num (it 0) (num 1) (num 2))", b"1.5", b"1", 3);
}

/// Two steps, and for each of the elements two more and one for each.
#[test]
fn step_65537_is_refused_at_the_form_about_to_be_entered() {
    let row = |count: usize| format!("[{}]", vec!["1"; count].join(",")).into_bytes();
    let reader = b"(each (it 0) (each (it 1) (no)))";
    refuses(Run, reader, &row(255), (13, 1, 26));
    refuses(Run, reader, &row(254), (14, 0, 0));
    let stuck = b"(each (it 0) (each (it 1) (int (it 9))))";
    refuses(Run, stuck, &row(255), (7, 1, 35));
}

#[test]
fn a_result_counts_each_occurrence_and_the_root() {
    let row = |count: usize| format!("[{}]", vec!["0"; count].join(",")).into_bytes();
    let twice = b"(pack \"a\" (keep (it 0)) \"b\" (keep (it 0)))";
    assert_eq!(ask(Run, twice, &row(254)).0.number, 0);
    refuses(Run, twice, &row(255), (14, 0, 0));
    let deep = [vec![b'['; 31], vec![b']'; 31]].concat();
    assert_eq!(ask(Run, b"(pack \"a\" (keep (it 0)))", &deep).0.number, 0);
    refuses(
        Run,
        b"(pack \"a\" (pack \"a\" (keep (it 0))))",
        &deep,
        (14, 0, 0),
    );
    runs(b"(if (bool (it 0)) (num 1) (none))", b"true", b"1", 4);
}

#[test]
fn the_result_of_a_run_may_be_longer_than_a_text() {
    let document = format!("\"{}\"", "t".repeat(16_000));
    let copies: String = (0..500).map(|i| format!("\"{i}\"(keep(it 0))")).collect();
    let short = &copies[..copies
        .match_indices("\"200\"")
        .next()
        .map_or(0, |(at, _)| at)];
    let (answer, written) = ask(
        Run,
        format!("(pack{short})").as_bytes(),
        document.as_bytes(),
    );
    assert_eq!(answer.number, 0);
    assert!(written.len() > 200 * 16_000);
}

#[test]
fn a_reader_without_a_token_means_none() {
    for blank in [b"".as_slice(), b" ", b"\t\r\n  "] {
        checks(blank, b"(shape int)", b"(shape null)\n");
        runs(blank, b"[1,2]", b"null", 1);
        refuses(Check, blank, blank, (7, 2, blank.len() as u64));
        refuses(Run, blank, blank, (3, 2, blank.len() as u64));
    }
}

#[test]
fn what_json_does_not_call_white_space_is_a_word_and_a_long_blank_is_too_long() {
    refuses(Run, b"\xEF\xBB\xBF", b"1", (7, 1, 0));
    refuses(Run, b" \x0B", b"1", (7, 1, 1));
    refuses(Run, &[b' '; 16385], b"1", (2, 1, 0));
}

#[test]
fn a_number_whose_fraction_digits_are_all_zero_is_an_int() {
    for zeros in [b"12.0".as_slice(), b"12.000000000"] {
        runs(b"(int (it 0))", zeros, b"12", 2);
        runs(b"(when int (it 0) (yes) (no))", zeros, b"true", 3);
        runs(b"(when int (it 0) (keep (it 0)) (no))", zeros, zeros, 4);
        runs(b"(dec (it 0))", zeros, zeros, 2);
        runs(b"(keep (it 0))", zeros, zeros, 2);
        says(Admits, b"(shape int)", zeros, true);
        writes(Infer, b"(shape)", zeros, b"(shape int)\n");
    }
    for decimal in [b"12.50".as_slice(), b"12.000000001", b"-0.1"] {
        refuses(Run, b"(int (it 0))", decimal, (12, 1, 0));
        runs(b"(when int (it 0) (yes) (no))", decimal, b"false", 3);
        says(Admits, b"(shape int)", decimal, false);
        writes(Infer, b"(shape)", decimal, b"(shape int dec)\n");
    }
    runs(b"(int (it 0))", b"-0.0", b"0", 2);
    runs(b"(int (it 0))", b"-10.00", b"-10", 2);
    runs(b"(num 12.0)", b"null", b"12.0", 1);
    checks(b"(num 12.0)", b"(shape)", b"(shape int)\n");
    checks(b"(num 12.5)", b"(shape)", b"(shape int dec)\n");
    refuses(Run, b"(keep (it 0.0))", b"[1]", (7, 1, 10));
}
