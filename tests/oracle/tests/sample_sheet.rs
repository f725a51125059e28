//! The paper's sample sheet, S1 to S14.

mod common;

use common::*;
use oracle::operations::Operation::*;

const S1: &[u8] = br#"[{"bay":4,"due":null},{"bay":4.5},{"due":"jan"}]"#;

#[test]
fn s1_infer_joins_records_and_adds_null_where_a_member_is_missing() {
    infers(
        S1,
        b"(shape list\n (shape rec\n  (member \"bay\"\n   (shape null int dec))\n  \
          (member \"due\"\n   (shape null text))))\n",
    );
}

#[test]
fn s2_run_counts_a_step_for_each_form_entered() {
    let reader = br#"(each (it 0) (when null (field "bay" (it 0)) (num 0) (dec (it 0))))"#;
    runs(reader, S1, b"[4,4.5,0]", 16);
}

#[test]
fn s3_the_empty_list_has_nothing_as_its_element() {
    infers(b"[]", b"(shape list\n (shape))\n");
}

#[test]
fn s4_a_record_without_a_member_is_below_one_where_it_has_null() {
    let (empty, with_a) = (b"(shape rec)", b"(shape rec (member \"a\" (shape null)))");
    infers(b"{}", b"(shape rec)\n");
    infers(
        b"{\"a\":null}",
        b"(shape rec\n (member \"a\"\n  (shape null)))\n",
    );
    says(Below, empty, with_a, true);
    says(Below, with_a, empty, false);
}

#[test]
fn s5_an_int_null_and_a_decimal_reach_null_int_dec() {
    infers(b"5", b"(shape int)\n");
    writes(Infer, b"(shape int)\n", b"null", b"(shape null int)\n");
    writes(
        Infer,
        b"(shape null int)\n",
        b"2.5",
        b"(shape null int dec)\n",
    );
}

#[test]
fn s6_a_reached_shape_does_not_admit_another_kind_of_member() {
    let first = b"(shape rec\n (member \"a\"\n  (shape int)))\n";
    let reached =
        b"(shape rec\n (member \"a\"\n  (shape int))\n (member \"b\"\n  (shape null text)))\n";
    infers(b"{\"a\":1}", first);
    writes(Infer, first, b"{\"a\":1,\"b\":\"s\"}", reached);
    says(Admits, reached, b"{\"a\":1,\"b\":7}", false);
    says(Admits, reached, b"{\"a\":1,\"b\":\"t\"}", true);
    says(Admits, reached, b"{\"a\":1}", true);
}

#[test]
fn s7_int_of_a_member_that_may_be_null_fails_its_check_and_is_stuck_on_null() {
    let reader = br#"(int (field "bay" (it 0)))"#;
    let shape = br#"(shape rec (member "bay" (shape null int)))"#;
    refuses(Check, reader, shape, (9, 1, 0));
    runs(reader, b"{\"bay\":4}", b"4", 3);
    refuses(Run, reader, b"{}", (12, 1, 0));
}

#[test]
fn s8_null_counts_zero() {
    runs(b"(count (it 0))", b"null", b"0", 2);
}

#[test]
fn s9_the_second_branch_of_when_int_keeps_int_beside_dec() {
    let reader = b"(when int (it 0) (yes) (int (it 0)))";
    refuses(Check, reader, b"(shape int dec)", (9, 1, 23));
}

#[test]
fn s10_plain_takes_32_nested_lists_and_refuses_33() {
    let lists = |depth: usize| [vec![b'['; depth], vec![b']'; depth]].concat();
    plain_writes(&lists(32), &lists(32));
    plain_refuses(&lists(33), 6, 32);
}

#[test]
fn s10_infer_refuses_to_write_33_shapes_inside_each_other() {
    let lists = |depth: usize| [vec![b'['; depth], vec![b']'; depth]].concat();
    refuses(Infer, b"(shape)", &lists(32), (11, 0, 0));
    assert_eq!(ask(Infer, b"(shape)", &lists(31)).0.number, 0);
}

#[test]
fn s11_nine_fraction_digits_pass_and_a_tenth_or_a_19th_digit_is_refused() {
    plain_writes(b"0.123456789", b"0.123456789");
    plain_refuses(b"0.1234567890", 4, 0);
    plain_refuses(b"1000000000000000000", 4, 0);
    plain_writes(b"999999999999999999", b"999999999999999999");
}

#[test]
fn s12_a_name_spelled_with_an_escape_comes_a_second_time() {
    plain_refuses(br#"{"a":1,"\u0061":2}"#, 5, 7);
}

#[test]
fn s13_an_empty_document_breaks_at_its_end() {
    plain_refuses(b"", 3, 0);
}

#[test]
fn s14_zero_has_no_minus() {
    plain_writes(b"-0", b"0");
}
