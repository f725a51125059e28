//! Reading documents and writing plain JSON, with the examples of the
//! settled readings.

mod common;

use common::*;
use oracle::limits::Limits;
use oracle::operations::{operate, Operation, Texts};

/// Each document is refused with the number at the place beside it.
#[track_caller]
fn refused(number: u8, cases: &[(&[u8], u64)]) {
    for (document, place) in cases {
        plain_refuses(document, number, *place);
    }
}

#[track_caller]
fn written(cases: &[(&[u8], &[u8])]) {
    for (document, wanted) in cases {
        plain_writes(document, wanted);
    }
}

#[test]
fn plain_refuses_at_the_first_byte_after_which_nothing_could_follow() {
    refused(
        3,
        &[
            (b"nulx", 3),
            (b"[tru]", 4),
            (b"\"\\x", 2),
            (b"01", 1),
            (b"-x", 1),
            (b"1.]", 2),
            (b"[1,]", 3),
            (b"{\"a\":1,}", 7),
            (b"{\"a\" 1}", 5),
            (b"[1 2]", 3),
            (b"{1:2}", 1),
            (b"[}", 1),
            (b"1 1", 2),
            (b"TRUE", 0),
            (b"+1", 0),
            (b".5", 0),
            (b"-01", 2),
            (b"1.e5", 2),
            (b"[\"a\x1f\"]", 3),
            (b"\x0b1", 0),
            (b"{\"a\":}", 5),
            (b"{,}", 1),
            (b"/**/1", 0),
        ],
    );
}

#[test]
fn plain_refuses_a_cut_document_at_its_length() {
    refused(
        3,
        &[
            (b" \t\r\n", 4),
            (b"[", 1),
            (b"nul", 3),
            (b"\"", 1),
            (b"\"\\", 2),
            (b"\"\\u00", 5),
            (b"-", 1),
            (b"1.", 2),
            (b"1e", 2),
            (b"1e+", 3),
            (b"{\"a\"", 4),
            (b"{\"a\":1", 6),
            (b"\"\xe2\x82", 3),
            (b"\"\\uD800\\u", 9),
        ],
    );
}

#[test]
fn plain_refuses_a_leading_byte_order_mark() {
    refused(3, &[(b"\xef\xbb\xbf1", 0), (b"\xef\xbb\xbf", 0)]);
    plain_writes(b"\"\xef\xbb\xbf\"", b"\"\xef\xbb\xbf\"");
}

#[test]
fn plain_refuses_a_lone_surrogate_at_its_digit() {
    refused(
        3,
        &[
            (b"\"\\uDC00\"", 4),
            (b"\"\\udFff\"", 4),
            (b"\"\\uD800\"", 7),
            (b"\"\\uD800\\n\"", 8),
            (b"\"\\uD800\\u0", 9),
            (b"\"\\uD800\\uD8", 10),
            (b"\"\\uD800\\uE", 9),
            (b"\"\\uDBFFx", 7),
            (b"\"\\uD800\\uDC0g", 12),
        ],
    );
    written(&[
        (b"\"\\uD800\\uDC00\"", b"\"\xf0\x90\x80\x80\""),
        (b"\"\\udbff\\uDfFf\"", b"\"\xf4\x8f\xbf\xbf\""),
        (b"\"\\uD7FF\\ue000\"", b"\"\xed\x9f\xbf\xee\x80\x80\""),
    ]);
}

#[test]
fn plain_refuses_utf8_by_the_table_of_rfc_3629() {
    refused(
        3,
        &[
            (b"\"\xc0\x80\"", 1),
            (b"\"\xc1\xbf\"", 1),
            (b"\"\xf5\x80\x80\x80\"", 1),
            (b"\"\xff\"", 1),
            (b"\"\x80\"", 1),
            (b"\"\xe0\x9f\x80\"", 2),
            (b"\"\xed\xa0\x80\"", 2),
            (b"\"\xf0\x8f\x80\x80\"", 2),
            (b"\"\xf4\x90\x80\x80\"", 2),
            (b"\"\xc2\"", 2),
            (b"\"\xe2\x82\"", 3),
            (b"\"\xf0\x90\x80\"", 4),
            (b"\"\xf1\x80\x80\x7f\"", 4),
        ],
    );
}

/// Every text of one to four bytes from the borders of the table.
#[test]
fn texts_are_utf8_exactly_where_the_standard_library_says_so() {
    let borders = [
        0x20, 0x7f, 0x80, 0x8f, 0x90, 0x9f, 0xa0, 0xbf, 0xc0, 0xc1, 0xc2, 0xdf, 0xe0, 0xe1, 0xec,
        0xed, 0xee, 0xef, 0xf0, 0xf1, 0xf3, 0xf4, 0xf5, 0xff,
    ];
    let mut texts: Vec<Vec<u8>> = vec![Vec::new()];
    for _ in 0..4 {
        let longer = texts
            .iter()
            .flat_map(|text| borders.map(|byte| [&text[..], &[byte]].concat()));
        texts = longer.collect();
        for text in &texts {
            let (answer, _) = ask(Operation::Plain, &[b"\"", &text[..], b"\""].concat(), b"");
            assert_eq!(
                answer.number == 0,
                std::str::from_utf8(text).is_ok(),
                "{text:x?}"
            );
        }
    }
}

#[test]
fn plain_refuses_a_number_beyond_the_limits_at_its_first_byte() {
    refused(
        4,
        &[
            (b"1e5x", 0),
            (b"0.0000000000", 0),
            (b"1234567890.123456789", 0),
            (b"[1,1e5", 3),
            (b"-1000000000000000000", 0),
            (b"0e0", 0),
            (b"1E-2]", 0),
            (b" 1000000000000000000x", 1),
            (b"1000000000000000000.0", 0),
            (b"999999999999999999.0", 0),
        ],
    );
}

#[test]
fn plain_refuses_a_run_that_is_no_number_behind_it() {
    refused(
        3,
        &[
            (b"1e]", 2),
            (b"1000000000000000000.x", 20),
            (b"1000000000000000000e", 20),
            (b"1e+x", 3),
            (b"0.0000000000e", 13),
        ],
    );
}

#[test]
fn plain_refuses_a_second_name_at_its_quote_whatever_follows() {
    refused(
        5,
        &[
            (b"{\"a\":1,\"a\"x", 7),
            (b"{\"a\":1,\"a\"", 7),
            (b"{\"a\":1, \"\\u0061\":1e5}", 8),
            (b"{\"a\":{\"a\":1},\"b\":2,\"a\":3}", 19),
            (b"{\"\":1,\"\":2}", 6),
            (b"{\"\\ud83d\\ude00\":1,\"\xf0\x9f\x98\x80\":2}", 18),
        ],
    );
    refused(3, &[(b"{\"a\":1,\"a", 9), (b"{\"a\":1,\"a\x01\"", 9)]);
}

/// A list of 512 values: itself and 511 ones.
fn with_next(next: &str) -> Vec<u8> {
    format!("[{}{next}]", "1,".repeat(511)).into_bytes()
}

#[test]
fn plain_refuses_the_513th_value_where_it_begins() {
    for next in ["1", "null", "[", "\"", "{", "tru", "-", "1.", "1e"] {
        plain_refuses(&with_next(next), 6, 1023);
    }
    for next in ["1e5", "1000000000000000000", "0.1234567890"] {
        plain_refuses(&with_next(next), 4, 1023);
    }
    for next in ["x", "]", ",", "+"] {
        plain_refuses(&with_next(next), 3, 1023);
    }
}

#[test]
fn plain_counts_no_name_as_a_value_and_scalars_for_nesting() {
    let members: Vec<String> = (0..511).map(|index| format!("\"{index}\":0")).collect();
    let record = format!("{{{}}}", members.join(","));
    plain_writes(record.as_bytes(), record.as_bytes());
    let deep = format!("{}1{}", "[".repeat(32), "]".repeat(32));
    plain_refuses(deep.as_bytes(), 6, 32);
    let broken = format!("{}x", "[".repeat(32));
    plain_refuses(broken.as_bytes(), 3, 32);
}

#[test]
fn plain_writes_the_fewest_escapes() {
    written(&[
        (
            b" [ 1 , { \"b\" : 2 , \"a\" : 3 } ] ",
            b"[1,{\"b\":2,\"a\":3}]",
        ),
        (
            b"\"\\u0022\\u005c\\/\\u0008\\f\\n\\r\\t\"",
            b"\"\\\"\\\\/\\b\\f\\n\\r\\t\"",
        ),
        (
            b"\"\\u0000\\u001F\\u007f\\u00e9\"",
            b"\"\\u0000\\u001f\x7f\xc3\xa9\"",
        ),
        (b"-0.00", b"0.00"),
        (b"3.50", b"3.50"),
        (b"-0.05", b"-0.05"),
        (b"[-0,0]", b"[0,0]"),
        (b"-999999999999999999", b"-999999999999999999"),
        (b"0.000000001", b"0.000000001"),
    ]);
}

#[test]
fn a_text_of_16384_bytes_is_read_and_a_longer_one_refused_before_anything_else() {
    let mut text = b"x".to_vec();
    text.resize(16_384, b'x');
    plain_refuses(&text, 3, 0);
    text.push(b'x');
    plain_refuses(&text, 2, 0);
}

#[test]
fn millions_of_bytes_are_refused_by_their_size() {
    for byte in [b'[', b'(', b' ', b'"', b'1', 0xff] {
        let text = vec![byte; 5_000_000];
        for operation in Operation::ALL {
            refuses(operation, &text, &text, (2, 1, 0));
        }
    }
}

#[test]
fn a_short_output_gives_the_length_needed_and_keeps_its_bytes() {
    let texts = Texts {
        first: b"[ 1, 2 ]",
        second: b"",
        limits: &Limits::LARGEST,
    };
    let mut output = [0xa5; 8];
    let answer = operate(Operation::Plain, texts, &mut output[..4]);
    assert_eq!((answer.number, answer.length, output), (15, 5, [0xa5; 8]));
    let answer = operate(Operation::Plain, texts, &mut output);
    assert_eq!((answer.number, answer.length), (0, 5));
    assert_eq!(&output, b"[1,2]\xa5\xa5\xa5");
}
