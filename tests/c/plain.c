/* What plain writes and refuses: a document and its outcome side by side, with an output as long as the document. */
#include <string.h>

#include "calls.h"
#include "check.h"
#include "runvestol.h"
#include "suites.h"

struct plain_case {
    const char *name;
    const char *document;
    const char *written; /* NULL where the document is refused */
    uint64_t number, place;
};

#define WRITES(bytes) bytes, RUNVESTOL_OK, 0
#define REFUSES(number, place) NULL, RUNVESTOL_##number, place

#define LISTS_8 "[[[[[[[["
#define LISTS_32 LISTS_8 LISTS_8 LISTS_8 LISTS_8
#define ENDS_8 "]]]]]]]]"
#define ENDS_32 ENDS_8 ENDS_8 ENDS_8 ENDS_8

static const struct plain_case cases[] = {
    {"plain_removes_white_space_between_tokens", " [ 1 ,\t2\r\n, { \"a\" : null } ] ", WRITES("[1,2,{\"a\":null}]")},
    {"plain_keeps_white_space_in_texts", "\" a \"", WRITES("\" a \"")},
    {"plain_keeps_the_order_of_members", "{\"b\":1,\"a\":2}", WRITES("{\"b\":1,\"a\":2}")},
    {"plain_writes_the_three_literals", "[true, false, null]", WRITES("[true,false,null]")},
    {"plain_keeps_fraction_digits_as_written", "[4.50, 0.00]", WRITES("[4.50,0.00]")},
    {"plain_writes_zero_without_a_minus", "[-0, -0.00, -0.5]", WRITES("[0,0.00,-0.5]")},
    {"plain_takes_eighteen_digits", "999999999999999999", WRITES("999999999999999999")},
    {"plain_takes_nine_fraction_digits", "0.123456789", WRITES("0.123456789")},
    {"plain_decodes_escapes_that_plain_json_has_not", "\"\\u0041\\/\\u00e9\\ud83d\\uDE00\"",
     WRITES("\"A/\xC3\xA9\xF0\x9F\x98\x80\"")},
    {"plain_writes_escapes_of_two_characters_where_there_are_any", "\"\\u0008\\u000C\\u000a\\u000d\\u0009\\u0022\\u005c\"",
     WRITES("\"\\b\\f\\n\\r\\t\\\"\\\\\"")},
    {"plain_writes_other_controls_in_lower_case_digits", "\"\\u0000\\u001F\"", WRITES("\"\\u0000\\u001f\"")},
    {"plain_takes_thirty_two_nested_lists", LISTS_32 ENDS_32, WRITES(LISTS_32 ENDS_32)},

    {"plain_refuses_an_empty_document_at_its_end", "", REFUSES(JSON_SYNTAX, 0)},
    {"plain_refuses_white_space_alone_at_its_end", " \n", REFUSES(JSON_SYNTAX, 2)},
    {"plain_refuses_a_cut_document_at_its_end", "{\"a\":[1", REFUSES(JSON_SYNTAX, 7)},
    {"plain_refuses_a_broken_literal_at_the_wrong_byte", "nulx", REFUSES(JSON_SYNTAX, 3)},
    {"plain_refuses_a_trailing_comma_at_the_bracket", "[1,]", REFUSES(JSON_SYNTAX, 3)},
    {"plain_refuses_a_leading_zero_at_the_second_digit", "01", REFUSES(JSON_SYNTAX, 1)},
    {"plain_refuses_a_second_value_behind_the_first", "1 2", REFUSES(JSON_SYNTAX, 2)},
    {"plain_refuses_a_byte_order_mark_at_its_first_byte", "\xEF\xBB\xBF" "1", REFUSES(JSON_SYNTAX, 0)},
    {"plain_refuses_a_lone_surrogate_at_its_digit", "\"\\uDC00\"", REFUSES(JSON_SYNTAX, 4)},
    {"plain_refuses_a_high_surrogate_that_nothing_follows", "\"\\uD800\"", REFUSES(JSON_SYNTAX, 7)},
    {"plain_refuses_overlong_utf8_at_its_first_byte", "\"\xC0\x80\"", REFUSES(JSON_SYNTAX, 1)},
    {"plain_refuses_a_surrogate_in_utf8_at_its_second_byte", "\"\xED\xA0\x80\"", REFUSES(JSON_SYNTAX, 2)},
    {"plain_refuses_a_raw_control_byte_in_a_text", "\"\x1F\"", REFUSES(JSON_SYNTAX, 1)},
    {"plain_refuses_a_number_of_nineteen_digits_at_its_start", "[1000000000000000000]", REFUSES(NUMBER_LIMIT, 1)},
    {"plain_refuses_a_tenth_fraction_digit_at_the_numbers_start", " 0.1234567890", REFUSES(NUMBER_LIMIT, 1)},
    {"plain_refuses_an_exponent_at_the_numbers_start", "1e5", REFUSES(NUMBER_LIMIT, 0)},
    {"plain_compares_names_after_decoding_them", "{\"a\":1,\"\\u0061\":2}", REFUSES(DUPLICATE_NAME, 7)},
    {"plain_takes_one_name_in_two_records", "[{\"a\":1},{\"a\":2}]", WRITES("[{\"a\":1},{\"a\":2}]")},
    {"plain_refuses_a_thirty_third_nested_list_at_its_bracket", LISTS_32 "[]" ENDS_32, REFUSES(VALUE_LIMIT, 32)},
    {"plain_refuses_the_smallest_place_first", "[1e5,{\"a\":1,\"a\":2}", REFUSES(NUMBER_LIMIT, 1)},
};

static void run_plain_case(const struct plain_case *c)
{
    const struct bytes document = bytes_of(c->document);
    struct outcome expected = {.number = c->number, .text = c->written == NULL ? 1 : 0, .place = c->place};
    if (c->written != NULL) {
        expected.written = bytes_of(c->written);
        expected.length = expected.written.length;
    }
    case_begin(c->name);
    expect_of_texts(operation_named("plain"), &document, document.length, &expected);
    case_end();
}

static void plain_refuses_a_zero_byte(void)
{
    const struct bytes document = BYTES("[1\0]");
    const struct outcome expected = {.number = RUNVESTOL_JSON_SYNTAX, .text = 1, .place = 2};
    expect_of_texts(operation_named("plain"), &document, 4, &expected);
}

void plain_suite(void)
{
    for (size_t i = 0; i < sizeof cases / sizeof *cases; i++)
        run_plain_case(&cases[i]);
    RUN(plain_refuses_a_zero_byte);
}
