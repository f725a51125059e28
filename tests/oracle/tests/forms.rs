//! Reading shape texts and readers, with the examples of the settled readings.

mod common;

use common::*;
use oracle::operations::Operation::*;

/// Each shape text is refused with 7 at the place beside it.
#[track_caller]
fn wrong_shapes(cases: &[(&[u8], u64)]) {
    for (shape, place) in cases {
        refuses(Join, shape, b"(shape)", (7, 1, *place));
        refuses(Join, b"(shape)", shape, (7, 2, *place));
    }
}

#[track_caller]
fn wrong_readers(cases: &[(&[u8], u64)]) {
    for (reader, place) in cases {
        refuses(Run, reader, b"null", (7, 1, *place));
        refuses(Check, reader, b"(shape)", (7, 1, *place));
    }
}

#[test]
fn a_shape_text_is_refused_at_the_first_token_that_no_right_text_has_there() {
    wrong_shapes(&[
        (b"(shape int (", 11),
        (b"(shape list)", 11),
        (b"(shape dec)", 7),
        (b"(shape list (member", 13),
        (b"(shape int int)", 11),
        (b"(shape int null)", 11),
        (b"(shape num)", 7),
        (b"(shape rec (shape", 12),
        (b"shape", 0),
        (b"((", 1),
        (b"(shape) (", 8),
        (b"(shape)x", 7),
        (b"(shape list (shape) (", 20),
        (b"[shape]", 0),
        (b"(shape rec (member a", 19),
        (b"(shape rec (member \"a\" )", 23),
        (b")", 0),
        (b"(shape null dec)", 12),
        (b"sha\"pe\"", 0),
        (b"(sha\"pe\"", 1),
        (b"(shape\x00)", 1),
        (b"(shape int dec)\"\"", 15),
        (b"(shape list rec (member", 17),
    ]);
}

#[test]
fn a_cut_token_is_refused_at_its_first_byte_and_a_cut_text_at_its_length() {
    wrong_shapes(&[
        (b"(sha", 1),
        (b"(shape rec (member \"a", 19),
        (b"", 0),
        (b" \n", 2),
        (b"(", 1),
        (b"(shape ", 7),
        (b"(shape int", 10),
        (b"(shape rec (member \"a\" (shape", 29),
    ]);
    wrong_readers(&[
        (b"(num 1.", 5),
        (b"(str \"", 5),
        (b" (", 2),
        (b"(none", 5),
        (b"(pack ", 6),
    ]);
}

#[test]
fn white_space_need_stand_only_between_two_words() {
    let spaced = b"\t( shape\r\nlist rec\t(shape ) ( member \"a\"(shape)) )\n";
    let tight = b"(shape list rec(shape)(member\"a\"(shape)))";
    let written = b"(shape list rec\n (shape)\n (member \"a\"\n  (shape)))\n";
    writes(Join, spaced, tight, written);
}

#[test]
fn names_ascend_by_their_decoded_bytes() {
    wrong_shapes(&[
        (
            b"(shape rec (member \"b\" (shape)) (member \"a\" (shape)))",
            40,
        ),
        (
            b"(shape rec (member \"a\" (shape)) (member \"\\u0061\" (shape)))",
            40,
        ),
        (
            b"(shape rec (member \"\xf0\x90\x80\x80\" (shape)) (member \"\xef\xbf\xbf\" (shape)))",
            43,
        ),
        (b"(shape rec (member \"\\ud800\" (shape)))", 19),
    ]);
    let escaped = b"(shape rec (member \"\\u0041\" (shape)) (member \"\\/\\u0000\" (shape)))";
    wrong_shapes(&[(escaped, 45)]);
    let right = b"(shape rec (member \"\\/\\u0000\" (shape)) (member \"\\u0041\" (shape)))";
    let written = b"(shape rec\n (member \"/\\u0000\"\n  (shape))\n (member \"A\"\n  (shape)))\n";
    writes(Join, right, b"(shape)", written);
}

#[test]
fn the_513th_shape_form_is_refused_at_its_bracket_whatever_follows() {
    let members: Vec<String> = (0..511)
        .map(|i| format!("(member \"{i:03}\"(shape))"))
        .collect();
    let full = format!("(shape rec{}", members.concat());
    let right = format!("{full})");
    says(Below, right.as_bytes(), right.as_bytes(), true);
    for behind in [
        "(member \"x\" (",
        "(member \"x\"\t(x",
        "(member \"x\" (shape)))",
    ] {
        let place = full.len() as u64 + 12;
        refuses(
            Join,
            format!("{full}{behind}").as_bytes(),
            b"",
            (8, 1, place),
        );
    }
    for (behind, further) in [("(member \"x\" x", 12), ("(member \"0\" (", 8), ("(x", 1)] {
        let place = full.len() as u64 + further;
        refuses(
            Join,
            format!("{full}{behind}").as_bytes(),
            b"",
            (7, 1, place),
        );
    }
}

#[test]
fn shapes_inside_33_forms_are_refused_and_members_count_for_nothing() {
    let deep = |depth: usize| {
        let around = "(shape rec (member \"a\" ".repeat(depth - 1);
        format!("{around}(shape){}", "))".repeat(depth - 1))
    };
    says(Below, deep(32).as_bytes(), deep(32).as_bytes(), true);
    refuses(Join, deep(33).as_bytes(), b"", (8, 1, 32 * 23));
    let lists = format!("{}x", "(shape list ".repeat(32));
    refuses(Join, lists.as_bytes(), b"", (7, 1, 32 * 12));
}

#[test]
fn a_reader_is_refused_at_the_first_token_that_no_right_text_has_there() {
    wrong_readers(&[
        (b"(count (keep", 8),
        (b"(when (it 0)", 6),
        (b"(it 0)", 1),
        (b"(field \"a\" (it 0))", 1),
        (b"(when dec (it 0) (yes) (no))", 6),
        (b"(yes) (no)", 6),
        (b"(yes (no))", 5),
        (b"(if (yes) (no))", 14),
        (b"(pack \"a\")", 9),
        (b"(pack a (yes))", 6),
        (b"(pack \"a\" (yes) \"\\u0061\" (no))", 16),
        (b"(num \"1\")", 5),
        (b"(str 1)", 5),
        (b"(int (it 0) (it 0))", 12),
        (b"(each (it 0))", 12),
        (b"(x)", 1),
        (b"(num 1 2)", 7),
    ]);
}

#[test]
fn the_number_of_it_has_no_minus_and_no_fraction_and_reaches_a_binding() {
    wrong_readers(&[
        (b"(keep (it -0))", 10),
        (b"(keep (it 0.0))", 10),
        (b"(keep (it 00))", 10),
        (b"(keep (it 1))", 10),
        (b"(keep (it -1))", 10),
        (b"(keep (it 1e0))", 10),
        (b"(keep (it 99999999999999999999))", 10),
        (b"(keep (it x))", 10),
        (b"(keep (it))", 9),
        (b"(each (it 1) (yes))", 10),
        (b"(each (it 0) (keep (it 2)))", 23),
        (b"(when int (it 1) (yes) (no))", 14),
    ]);
    runs(b"(each (it 0) (keep (it 1)))", b"[7]", b"[[7]]", 4);
    runs(b"(when int (it 0) (keep (it 1)) (no))", b"7", b"7", 4);
}

#[test]
fn a_number_of_num_is_a_json_number_within_the_limits() {
    wrong_readers(&[
        (b"(num 01)", 5),
        (b"(num 1000000000000000000)", 5),
        (b"(num 0.1234567890)", 5),
        (b"(num 1e5)", 5),
        (b"(num +1)", 5),
        (b"(num 1x)", 5),
        (b"(num -)", 5),
    ]);
    runs(b"(num -0)", b"1", b"0", 1);
    runs(b"(num -2.50)", b"1", b"-2.50", 1);
    runs(b"(num 999999999999999999)", b"1", b"999999999999999999", 1);
}

#[test]
fn every_form_of_a_reader_counts_places_too() {
    let pairs =
        |count: usize| -> String { (0..count).map(|i| format!("\"{i:03}\"(yes)")).collect() };
    let full = format!("(pack{}", pairs(511));
    assert_eq!(
        ask(Check, format!("{full})").as_bytes(), b"(shape)")
            .0
            .number,
        0
    );
    refuses(
        Run,
        format!("{full}\"x\"(").as_bytes(),
        b"",
        (8, 1, full.len() as u64 + 3),
    );
    let with_place = format!("(pack{}\"x\"(keep(it 0)))", pairs(510));
    refuses(Run, with_place.as_bytes(), b"", (8, 1, 5 + 510 * 10 + 8));
    let deep = format!("{}(keep (it 0))", "(pack\"a\"".repeat(31));
    refuses(Run, deep.as_bytes(), b"", (8, 1, 31 * 8 + 6));
}

#[test]
fn text_1_is_judged_whole_before_the_size_of_text_2() {
    let long = vec![b' '; 16_385];
    refuses(Join, b"(shape", &long, (7, 1, 6));
    refuses(Join, b"(shape)", &long, (2, 2, 0));
    refuses(Infer, &long, b"x", (2, 1, 0));
    refuses(Run, b"(yes)", b"x", (3, 2, 0));
}

#[test]
fn a_written_shape_of_16384_bytes_passes_and_a_longer_one_is_refused() {
    let shape = |length: usize| format!("(shape rec(member\"{}\"(shape)))", "n".repeat(length));
    let around = b"(shape rec\n (member \"\"\n  (shape)))\n".len();
    let (answer, written) = ask(Join, shape(16_384 - around).as_bytes(), b"(shape)");
    assert_eq!((answer.number, written.len()), (0, 16_384));
    refuses(
        Join,
        shape(16_385 - around).as_bytes(),
        b"(shape)",
        (11, 0, 0),
    );
}
