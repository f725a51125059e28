/* What the calls on shapes write, say and refuse: texts and their outcome side by side. */
#include "calls.h"
#include "check.h"
#include "runvestol.h"
#include "suites.h"
#include "table.h"

/* the shape of {"a":1} and then {"a":1,"b":"s"} */
#define A_THEN_B "(shape rec (member \"a\" (shape int)) (member \"b\" (shape null text)))"

#define LISTS_8 "[[[[[[[["
#define LISTS_31 LISTS_8 LISTS_8 LISTS_8 "[[[[[[["
#define ENDS_8 "]]]]]]]]"
#define ENDS_31 ENDS_8 ENDS_8 ENDS_8 "]]]]]]]"

static const struct table_case cases[] = {
    /* infer */
    {"infer_writes_the_shape_of_the_first_sample_of_the_sheet", "infer",
     {"(shape)\n", "[{\"bay\":4,\"due\":null},{\"bay\":4.5},{\"due\":\"jan\"}]"},
     WRITES("(shape list\n (shape rec\n  (member \"bay\"\n   (shape null int dec))\n"
            "  (member \"due\"\n   (shape null text))))")},
    {"infer_gives_the_empty_list_an_element_of_no_kind", "infer", {"(shape)", "[]"}, WRITES("(shape list\n (shape))")},
    {"infer_gives_the_empty_record_no_member", "infer", {"(shape)", "{}"}, WRITES("(shape rec)")},
    {"infer_adds_no_null_where_the_first_record_meets_nothing", "infer", {"(shape)", "{\"a\":1}"},
     WRITES("(shape rec\n (member \"a\"\n  (shape int)))")},
    {"infer_adds_no_null_where_the_first_record_meets_other_kinds", "infer", {"(shape text)", "{\"a\":1}"},
     WRITES("(shape text rec\n (member \"a\"\n  (shape int)))")},
    {"infer_adds_null_to_a_member_that_the_sample_lacks", "infer",
     {"(shape rec (member \"a\" (shape int)) (member \"b\" (shape int)))", "{\"a\":7}"},
     WRITES("(shape rec\n (member \"a\"\n  (shape int))\n (member \"b\"\n  (shape null int)))")},
    {"infer_adds_null_to_a_member_that_is_new", "infer", {"(shape rec)", "{\"a\":7}"},
     WRITES("(shape rec\n (member \"a\"\n  (shape null int)))")},
    {"infer_keeps_members_where_the_sample_is_no_record", "infer", {"(shape rec (member \"a\" (shape int)))", "true"},
     WRITES("(shape bool rec\n (member \"a\"\n  (shape int)))")},
    {"infer_has_int_and_dec_of_a_decimal", "infer", {"(shape)", "4.05"}, WRITES("(shape int dec)")},
    {"infer_has_int_of_a_fraction_of_zeros", "infer", {"(shape)", "12.000000000"}, WRITES("(shape int)")},
    {"infer_has_dec_of_one_digit_among_zeros", "infer", {"(shape)", "12.000000001"}, WRITES("(shape int dec)")},
    {"infer_has_both_of_ints_and_decimals", "infer", {"(shape)", "[12.0, 12.5, 12]"}, WRITES("(shape list\n (shape int dec))")},
    {"infer_has_int_of_ints_however_written", "infer", {"(shape)", "[12.0, 12, -0.00]"}, WRITES("(shape list\n (shape int))")},
    {"infer_has_int_alone_of_a_whole_number", "infer", {"(shape)", "-0"}, WRITES("(shape int)")},
    {"infer_keeps_dec_where_a_whole_number_follows", "infer", {"(shape null int dec)", "5"},
     WRITES("(shape null int dec)")},
    {"infer_joins_the_elements_of_a_list", "infer", {"(shape list (shape))", "[1, null, [2.5], [\"s\"]]"},
     WRITES("(shape list\n (shape null int list\n  (shape int dec text)))")},
    {"infer_puts_names_in_the_order_of_their_bytes", "infer",
     {"(shape)", "{\"b\":1,\"\xC3\xA9\":2,\"B\":3,\"\":4,\"ba\":5,\"\\u0000\":6}"},
     WRITES("(shape rec\n (member \"\"\n  (shape int))\n (member \"\\u0000\"\n  (shape int))\n (member \"B\"\n"
            "  (shape int))\n (member \"b\"\n  (shape int))\n (member \"ba\"\n  (shape int))\n (member \"\xC3\xA9\"\n"
            "  (shape int)))")},
    {"infer_puts_a_new_name_first_amid_and_last", "infer",
     {"(shape rec (member \"b\" (shape)) (member \"d\" (shape)))", "{\"e\":1,\"c\":1,\"a\":1}"},
     WRITES("(shape rec\n (member \"a\"\n  (shape null int))\n (member \"b\"\n  (shape null))\n (member \"c\"\n"
            "  (shape null int))\n (member \"d\"\n  (shape null))\n (member \"e\"\n  (shape null int)))")},
    {"infer_compares_names_after_decoding_them", "infer",
     {"(shape rec (member \"\\u0061\" (shape int)))", "{\"\\u0061\":\"s\"}"},
     WRITES("(shape rec\n (member \"a\"\n  (shape int text)))")},
    {"infer_refuses_the_empty_list_in_thirty_one_lists_as_too_large", "infer", {"(shape)", LISTS_31 "[]" ENDS_31},
     TOO_LARGE},
    {"infer_refuses_the_thirty_third_list_at_its_bracket", "infer", {"(shape)", LISTS_31 "[[]]" ENDS_31},
     REFUSES(VALUE_LIMIT, 2, 32)},
    {"infer_refuses_a_broken_shape_before_a_broken_sample", "infer", {"(shape list)", "[1,]"},
     REFUSES(FORM_SYNTAX, 1, 11)},
    {"infer_refuses_a_broken_sample", "infer", {"(shape)", "[1,]"}, REFUSES(JSON_SYNTAX, 2, 3)},
    {"infer_refuses_an_exponent", "infer", {"(shape)", "[1, 1e5]"}, REFUSES(NUMBER_LIMIT, 2, 4)},
    {"infer_refuses_a_second_name", "infer", {"(shape)", "{\"a\":1,\"\\u0061\":2}"}, REFUSES(DUPLICATE_NAME, 2, 7)},

    /* join */
    {"join_unites_kinds_in_their_order", "join", {"(shape text rec)", "(shape null bool int dec list (shape))"},
     WRITES("(shape null bool int dec text list rec\n (shape))")},
    {"join_of_nothing_is_the_other", "join", {"(shape)", "(shape rec (member \"a\" (shape)))"},
     WRITES("(shape rec\n (member \"a\"\n  (shape)))")},
    {"join_joins_elements", "join", {"(shape list (shape int))", "(shape list (shape text))"},
     WRITES("(shape list\n (shape int text))")},
    {"join_keeps_the_element_that_there_is", "join", {"(shape int)", "(shape list (shape text))"},
     WRITES("(shape int list\n (shape text))")},
    {"join_keeps_members_of_both_and_adds_null_to_those_of_one", "join",
     {"(shape rec (member \"a\" (shape int)) (member \"b\" (shape int)))",
      "(shape rec (member \"b\" (shape text)) (member \"c\" (shape text)))"},
     WRITES("(shape rec\n (member \"a\"\n  (shape null int))\n (member \"b\"\n  (shape int text))\n (member \"c\"\n"
            "  (shape null text)))")},
    {"join_adds_null_to_all_members_beside_a_record_of_none", "join",
     {"(shape rec (member \"a\" (shape)))", "(shape rec)"},
     WRITES("(shape rec\n (member \"a\"\n  (shape null)))")},
    {"join_adds_null_to_members_and_not_to_theirs", "join",
     {"(shape rec)", "(shape rec (member \"a\" (shape rec (member \"b\" (shape int)))))"},
     WRITES("(shape rec\n (member \"a\"\n  (shape null rec\n   (member \"b\"\n    (shape int)))))")},
    {"join_takes_a_shape_without_white_space", "join", {"(shape rec(member\"a\"(shape)))", "\t(\r\nshape )"},
     WRITES("(shape rec\n (member \"a\"\n  (shape)))")},
    {"join_writes_names_as_plain_json", "join", {"(shape)", "(shape rec (member \"\\u0008\\/\\u001F\" (shape)))"},
     WRITES("(shape rec\n (member \"\\b/\\u001f\"\n  (shape)))")},
    {"join_refuses_a_list_without_an_element_at_its_bracket", "join", {"(shape list)", "(shape)"},
     REFUSES(FORM_SYNTAX, 1, 11)},
    {"join_refuses_dec_without_int", "join", {"(shape)", "(shape null dec)"}, REFUSES(FORM_SYNTAX, 2, 12)},
    {"join_refuses_kinds_out_of_their_order", "join", {"(shape int null)", "(shape)"}, REFUSES(FORM_SYNTAX, 1, 11)},
    {"join_refuses_a_kind_a_second_time", "join", {"(shape int int)", "(shape)"}, REFUSES(FORM_SYNTAX, 1, 11)},
    {"join_refuses_a_member_without_rec", "join", {"(shape int (member \"a\" (shape)))", "(shape)"},
     REFUSES(FORM_SYNTAX, 1, 11)},
    {"join_refuses_a_name_that_is_not_above_the_one_before", "join",
     {"(shape rec (member \"b\" (shape)) (member \"a\" (shape)))", "(shape)"}, REFUSES(FORM_SYNTAX, 1, 40)},
    {"join_refuses_a_second_name_after_decoding_it", "join",
     {"(shape rec (member \"a\" (shape)) (member \"\\u0061\" (shape)))", "(shape)"}, REFUSES(FORM_SYNTAX, 1, 40)},
    {"join_refuses_a_cut_word_at_its_first_byte", "join", {"(shape)", "(shap"}, REFUSES(FORM_SYNTAX, 2, 1)},
    {"join_refuses_a_cut_shape_at_its_end", "join", {"(shape)", "(shape"}, REFUSES(FORM_SYNTAX, 2, 6)},
    {"join_refuses_an_open_name_at_its_quote", "join", {"(shape)", "(shape rec (member \"a"},
     REFUSES(FORM_SYNTAX, 2, 19)},
    {"join_refuses_a_lone_surrogate_at_the_names_quote", "join",
     {"(shape)", "(shape rec (member \"\\ud800\" (shape)))"}, REFUSES(FORM_SYNTAX, 2, 19)},
    {"join_refuses_a_token_behind_the_shape", "join", {"(shape) )", "(shape)"}, REFUSES(FORM_SYNTAX, 1, 8)},
    {"join_refuses_the_first_shape_before_the_second", "join", {"(shape x)", "x"}, REFUSES(FORM_SYNTAX, 1, 7)},

    /* below */
    {"below_has_the_empty_record_below_one_whose_members_have_null", "below",
     {"(shape rec)", "(shape rec (member \"a\" (shape null)))"}, SAYS_YES},
    {"below_has_no_record_of_more_members_below", "below", {"(shape rec (member \"a\" (shape null)))", "(shape rec)"},
     SAYS_NO},
    {"below_has_no_record_below_one_whose_other_members_lack_null", "below",
     {"(shape rec)", "(shape rec (member \"a\" (shape int)))"}, SAYS_NO},
    {"below_asks_nothing_of_members_where_the_first_has_no_rec", "below",
     {"(shape int)", "(shape int rec (member \"a\" (shape int)))"}, SAYS_YES},
    {"below_has_nothing_below_everything", "below", {"(shape)", "(shape)"}, SAYS_YES},
    {"below_has_a_shape_below_itself", "below", {A_THEN_B, A_THEN_B}, SAYS_YES},
    {"below_has_int_below_int_and_dec", "below", {"(shape int)", "(shape int dec)"}, SAYS_YES},
    {"below_has_int_and_dec_not_below_int", "below", {"(shape int dec)", "(shape int)"}, SAYS_NO},
    {"below_goes_down_into_elements", "below", {"(shape list (shape int))", "(shape list (shape text))"}, SAYS_NO},
    {"below_goes_down_into_members", "below",
     {"(shape rec (member \"a\" (shape list (shape int))))", "(shape rec (member \"a\" (shape list (shape null))))"},
     SAYS_NO},
    {"below_compares_names_after_decoding_them", "below",
     {"(shape rec (member \"\\u0061\" (shape)))", "(shape rec (member \"a\" (shape)))"}, SAYS_YES},
    {"below_refuses_a_broken_second_shape", "below", {"(shape)", "(shape list)"}, REFUSES(FORM_SYNTAX, 2, 11)},

    /* admits */
    {"admits_a_member_that_is_missing_and_has_null", "admits", {A_THEN_B, "{\"a\":1}"}, SAYS_YES},
    {"admits_no_member_of_another_kind", "admits", {A_THEN_B, "{\"a\":1,\"b\":7}"}, SAYS_NO},
    {"admits_no_record_that_lacks_a_member_without_null", "admits", {A_THEN_B, "{\"b\":\"s\"}"}, SAYS_NO},
    {"admits_no_member_that_is_not_listed", "admits", {A_THEN_B, "{\"a\":1,\"c\":null}"}, SAYS_NO},
    {"admits_members_in_any_order", "admits", {A_THEN_B, "{\"\\u0062\":\"s\",\"a\":1}"}, SAYS_YES},
    {"admits_a_whole_number_by_int", "admits", {"(shape int)", "4"}, SAYS_YES},
    {"admits_no_decimal_by_int", "admits", {"(shape int)", "4.10"}, SAYS_NO},
    {"admits_a_decimal_by_dec", "admits", {"(shape int dec)", "4.10"}, SAYS_YES},
    {"admits_a_fraction_of_zeros_by_int", "admits", {"(shape int)", "12.0"}, SAYS_YES},
    {"admits_no_int_by_nothing", "admits", {"(shape)", "12.0"}, SAYS_NO},
    {"admits_the_empty_list_by_any_element", "admits", {"(shape list (shape))", "[]"}, SAYS_YES},
    {"admits_no_element_of_nothing", "admits", {"(shape list (shape))", "[null]"}, SAYS_NO},
    {"admits_a_list_only_with_its_last_element", "admits", {"(shape list (shape int))", "[1, 2, \"3\"]"}, SAYS_NO},
    {"admits_nothing_by_nothing", "admits", {"(shape)", "null"}, SAYS_NO},
    {"admits_refuses_a_broken_document_in_the_second_text", "admits", {"(shape)", "nulx"}, REFUSES(JSON_SYNTAX, 2, 3)},
    {"admits_refuses_a_broken_shape_in_the_first_text", "admits", {"(shape num)", "nulx"}, REFUSES(FORM_SYNTAX, 1, 7)},
};

static void a_zero_byte_is_a_word_of_no_shape(void)
{
    const struct bytes texts[] = {BYTES("(shape \0)"), BYTES("(shape)")};
    const struct outcome expected = {.number = RUNVESTOL_FORM_SYNTAX, .text = 1, .place = 7};
    expect_of_texts(operation_named("join"), texts, 9, &expected);
    expect_of_texts(operation_named("below"), texts, 9, &expected);
}

void shapes_suite(void)
{
    run_table(cases, sizeof cases / sizeof *cases);
    RUN(a_zero_byte_is_a_word_of_no_shape);
}
