/* What the calls on readers write and refuse: texts and their outcome side by side. */
#include "calls.h"
#include "check.h"
#include "runvestol.h"
#include "suites.h"
#include "table.h"

/* a shape of every kind, and the same as it is written in a record's member */
#define ALL "(shape null bool int dec text list rec (shape int) (member \"a\" (shape text)))"
#define BAY "(shape rec (member \"bay\" (shape null int)))"
#define MOTOR "(shape rec (member \"motor\" (shape null rec (member \"rpm\" (shape int)))))"
#define S1 "(shape list (shape rec (member \"bay\" (shape null int dec)) (member \"due\" (shape null text))))"

static const struct table_case cases[] = {
    /* check: the sample sheet */
    {"check_refuses_S7_where_the_member_may_be_null", "check", {"(int (field \"bay\" (it 0)))", BAY}, REFUSES(UNWANTED_KIND, 1, 0)},
    {"check_refuses_S9_where_int_stays_beside_dec", "check",
     {"(when int (it 0) (yes) (int (it 0)))", "(shape int dec)"}, REFUSES(UNWANTED_KIND, 1, 23)},
    {"check_passes_the_reader_of_S2", "check",
     {"(each (it 0) (when null (field \"bay\" (it 0)) (num 0) (dec (it 0))))", S1}, WRITES("(shape list\n (shape int dec))")},

    /* check: places */
    {"check_gives_a_members_shape_by_field", "check", {"(keep (field \"bay\" (it 0)))", BAY}, WRITES("(shape null int)")},
    {"check_compares_names_after_decoding_them", "check", {"(keep (field \"\\u0062ay\" (it 0)))", BAY}, WRITES("(shape null int)")},
    {"check_refuses_a_name_that_is_not_listed_at_its_field", "check", {"(keep (field \"due\" (it 0)))", BAY},
     REFUSES(UNLISTED_NAME, 1, 6)},
    {"check_refuses_field_of_another_kind_beside_rec", "check",
     {"(keep (field \"a\" (it 0)))", "(shape null text rec (member \"a\" (shape)))"}, REFUSES(UNWANTED_KIND, 1, 6)},
    {"check_refuses_the_kind_before_the_name_at_one_form", "check", {"(keep (field \"due\" (it 0)))", "(shape null int rec)"},
     REFUSES(UNWANTED_KIND, 1, 6)},
    {"check_adds_null_to_a_member_where_the_place_has_null", "check", {"(keep (field \"rpm\" (field \"motor\" (it 0))))", MOTOR},
     WRITES("(shape null int)")},
    {"check_adds_null_to_a_member_of_no_kind", "check",
     {"(keep (field \"a\" (it 0)))", "(shape null rec (member \"a\" (shape)))"}, WRITES("(shape null)")},
    {"check_adds_null_to_a_member_with_its_parts", "check",
     {"(keep (field \"a\" (it 0)))", "(shape null rec (member \"a\" (shape list rec (shape int) (member \"b\" (shape)))))"},
     WRITES("(shape null list rec\n (shape int)\n (member \"b\"\n  (shape)))")},
    {"check_refuses_a_conversion_of_the_null_that_a_member_gained", "check", {"(int (field \"rpm\" (field \"motor\" (it 0))))", MOTOR},
     REFUSES(UNWANTED_KIND, 1, 0)},
    {"check_takes_the_null_that_a_member_gained_out_by_when", "check",
     {"(when null (field \"rpm\" (field \"motor\" (it 0))) (num 0) (int (it 0)))", MOTOR}, WRITES("(shape int)")},
    {"check_finds_no_name_in_null", "check", {"(keep (field \"a\" (it 0)))", "(shape null)"}, REFUSES(UNLISTED_NAME, 1, 6)},
    {"check_finds_no_name_in_nothing", "check", {"(keep (field \"a\" (it 0)))", "(shape)"}, REFUSES(UNLISTED_NAME, 1, 6)},
    {"check_refuses_the_inner_field_first", "check", {"(int (field \"a\" (field \"b\" (it 0))))", BAY}, REFUSES(UNLISTED_NAME, 1, 16)},
    {"check_goes_outward_by_it", "check",
     {"(each (field \"a\" (it 0)) (each (it 0) (pack \"0\" (keep (it 0)) \"1\" (keep (it 1)) \"2\" (keep (it 2)))))",
      "(shape rec (member \"a\" (shape list (shape list (shape text)))))"},
     WRITES("(shape list\n (shape list\n  (shape rec\n   (member \"0\"\n    (shape text))\n   (member \"1\"\n    (shape list\n"
            "     (shape text)))\n   (member \"2\"\n    (shape rec\n     (member \"a\"\n      (shape list\n       (shape list\n"
            "        (shape text)))))))))")},

    /* check: conversions */
    {"check_gives_int_by_int", "check", {"(int (it 0))", "(shape int)"}, WRITES("(shape int)")},
    {"check_refuses_int_of_dec", "check", {"(int (it 0))", "(shape int dec)"}, REFUSES(UNWANTED_KIND, 1, 0)},
    {"check_gives_both_by_dec_of_int", "check", {"(dec (it 0))", "(shape int)"}, WRITES("(shape int dec)")},
    {"check_gives_both_by_dec_of_dec", "check", {"(dec (it 0))", "(shape int dec)"}, WRITES("(shape int dec)")},
    {"check_refuses_dec_of_null", "check", {"(dec (it 0))", "(shape null int dec)"}, REFUSES(UNWANTED_KIND, 1, 0)},
    {"check_gives_bool_by_bool", "check", {"(bool (it 0))", "(shape bool)"}, WRITES("(shape bool)")},
    {"check_gives_text_by_text", "check", {"(text (it 0))", "(shape text)"}, WRITES("(shape text)")},
    {"check_passes_a_conversion_of_nothing_and_gives_its_kind", "check", {"(text (it 0))", "(shape)"}, WRITES("(shape text)")},
    {"check_keeps_any_shape", "check", {"(keep (it 0))", ALL},
     WRITES("(shape null bool int dec text list rec\n (shape int)\n (member \"a\"\n  (shape text)))")},

    /* check: count and each */
    {"check_counts_lists_and_null", "check", {"(count (it 0))", "(shape null list (shape text))"}, WRITES("(shape int)")},
    {"check_refuses_count_of_text", "check", {"(count (it 0))", "(shape text list (shape))"}, REFUSES(UNWANTED_KIND, 1, 0)},
    {"check_gives_a_list_by_each", "check", {"(each (it 0) (count (it 0)))", "(shape list (shape list (shape)))"},
     WRITES("(shape list\n (shape int))")},
    {"check_binds_nothing_by_each_where_list_is_absent", "check", {"(each (it 0) (int (it 0)))", "(shape null)"},
     WRITES("(shape list\n (shape int))")},
    {"check_refuses_each_behind_its_part", "check", {"(each (it 0) (int (it 1)))", "(shape text)"}, REFUSES(UNWANTED_KIND, 1, 13)},
    {"check_refuses_each_of_another_kind_where_its_part_passes", "check", {"(each (it 0) (yes))", "(shape text)"},
     REFUSES(UNWANTED_KIND, 1, 0)},

    /* check: when */
    {"check_cuts_to_a_kind_and_takes_it_out", "check",
     {"(when text (it 0) (pack \"a\" (text (it 0))) (int (it 0)))", "(shape int text)"},
     WRITES("(shape int rec\n (member \"a\"\n  (shape text)))")},
    {"check_cuts_to_int_alone", "check", {"(when int (it 0) (int (it 0)) (dec (it 0)))", "(shape int dec)"}, WRITES("(shape int dec)")},
    {"check_takes_int_out_where_dec_is_absent", "check", {"(when int (it 0) (yes) (text (it 0)))", "(shape int text)"},
     WRITES("(shape bool text)")},
    {"check_takes_both_out_by_num", "check", {"(when num (it 0) (dec (it 0)) (text (it 0)))", "(shape int dec text)"},
     WRITES("(shape int dec text)")},
    {"check_takes_the_element_with_list", "check", {"(when list (it 0) (yes) (keep (it 0)))", ALL},
     WRITES("(shape null bool int dec text rec\n (member \"a\"\n  (shape text)))")},
    {"check_cuts_to_rec_with_its_members", "check", {"(when rec (it 0) (keep (it 0)) (none))", ALL},
     WRITES("(shape null rec\n (member \"a\"\n  (shape text)))")},
    {"check_binds_nothing_where_the_kind_is_absent", "check", {"(when bool (it 0) (text (it 0)) (int (it 0)))", "(shape int)"},
     WRITES("(shape int text)")},
    {"check_looks_at_the_second_branch_too", "check", {"(when null (it 0) (yes) (text (it 0)))", "(shape null int)"},
     REFUSES(UNWANTED_KIND, 1, 24)},
    {"check_refuses_the_first_branch_first", "check", {"(when null (it 0) (int (it 0)) (text (it 0)))", "(shape null int)"},
     REFUSES(UNWANTED_KIND, 1, 18)},
    {"check_joins_records_of_both_branches_with_null", "check",
     {"(when null (it 0) (pack \"a\" (yes)) (pack \"b\" (no)))", "(shape null int)"},
     WRITES("(shape rec\n (member \"a\"\n  (shape null bool))\n (member \"b\"\n  (shape null bool)))")},
    {"check_leaves_the_place_outside_the_binding", "check",
     {"(when null (it 0) (yes) (when int (it 1) (no) (keep (it 0))))", "(shape null int)"}, WRITES("(shape null bool)")},

    /* check: if, literals, pack */
    {"check_joins_both_branches_of_if", "check", {"(if (bool (it 0)) (num 1) (str \"\"))", "(shape bool)"}, WRITES("(shape int text)")},
    {"check_refuses_a_condition_of_another_kind_behind_its_branches", "check", {"(if (num 1) (int (it 0)) (no))", "(shape text)"},
     REFUSES(UNWANTED_KIND, 1, 12)},
    {"check_refuses_a_condition_of_another_kind", "check", {" (if (num 1) (yes) (no))", "(shape)"}, REFUSES(UNWANTED_KIND, 1, 1)},
    {"check_takes_a_condition_of_no_kind", "check", {"(if (keep (it 0)) (yes) (none))", "(shape)"}, WRITES("(shape null bool)")},
    {"check_has_no_more_of_a_condition_than_its_kinds", "check",
     {"(if (when rec (it 0) (yes) (no)) (num 4) (num 4.5))", "(shape rec (member \"a\" (shape)))"}, WRITES("(shape int dec)")},
    {"check_gives_literals_their_shapes", "check",
     {"(pack \"1\" (num -0) \"2\" (num 4.50) \"3\" (str \"t\") \"4\" (yes) \"5\" (no) \"6\" (none))", "(shape)"},
     WRITES("(shape rec\n (member \"1\"\n  (shape int))\n (member \"2\"\n  (shape int dec))\n (member \"3\"\n  (shape text))\n"
            " (member \"4\"\n  (shape bool))\n (member \"5\"\n  (shape bool))\n (member \"6\"\n  (shape null)))")},
    {"check_gives_the_empty_pack_no_member", "check", {"(pack)", "(shape)"}, WRITES("(shape rec)")},
    {"check_puts_the_names_of_pack_in_the_order_of_their_bytes", "check",
     {"(pack \"b\" (no) \"\xC3\xA9\" (no) \"\" (no) \"B\" (no) \"ba\" (no) \"\\u0000\" (no))", "(shape)"},
     WRITES("(shape rec\n (member \"\"\n  (shape bool))\n (member \"\\u0000\"\n  (shape bool))\n (member \"B\"\n  (shape bool))\n"
            " (member \"b\"\n  (shape bool))\n (member \"ba\"\n  (shape bool))\n (member \"\xC3\xA9\"\n  (shape bool)))")},
    {"check_checks_the_parts_of_pack_in_their_order", "check", {"(pack \"b\" (int (it 0)) \"a\" (keep (field \"x\" (it 0))))", "(shape text)"},
     REFUSES(UNWANTED_KIND, 1, 10)},

    /* check: texts */
    {"check_takes_any_white_space_and_none", "check", {"\t(each\r\n( it 0 )(dec(it 0)) ) \n", "(shape list(shape int))"},
     WRITES("(shape list\n (shape int dec))")},
    {"check_refuses_it_past_the_document_at_its_number", "check", {"(keep (it 1))", "(shape)"}, REFUSES(FORM_SYNTAX, 1, 10)},
    {"check_refuses_it_with_a_minus_or_a_fraction", "check", {"(keep (it -0))", "(shape)"}, REFUSES(FORM_SYNTAX, 1, 10)},
    {"check_refuses_it_with_a_fraction_of_zeros", "check", {"(keep (it 0.0))", "(shape int)"}, REFUSES(FORM_SYNTAX, 1, 10)},
    {"check_has_int_of_a_literal_with_a_fraction_of_zeros", "check", {"(num 12.0)", "(shape)"}, WRITES("(shape int)")},
    {"check_has_both_of_a_literal_that_is_a_decimal", "check", {"(num 12.50)", "(shape)"}, WRITES("(shape int dec)")},
    {"check_takes_it_past_no_binding_of_a_place", "check", {"(each (it 1) (yes))", "(shape)"}, REFUSES(FORM_SYNTAX, 1, 10)},
    {"check_refuses_a_number_of_too_many_digits_at_its_start", "check", {"(num 1000000000000000000)", "(shape)"}, REFUSES(FORM_SYNTAX, 1, 5)},
    {"check_refuses_a_name_of_pack_a_second_time", "check", {"(pack \"a\" (yes) \"\\u0061\" (no))", "(shape)"}, REFUSES(FORM_SYNTAX, 1, 16)},
    {"check_refuses_an_unknown_word", "check", {"(keeps (it 0))", "(shape)"}, REFUSES(FORM_SYNTAX, 1, 1)},
    {"check_refuses_a_place_for_a_reader", "check", {"(it 0)", "(shape)"}, REFUSES(FORM_SYNTAX, 1, 1)},
    {"check_refuses_what_follows_a_reader", "check", {"(yes) (no)", "(shape)"}, REFUSES(FORM_SYNTAX, 1, 6)},
    {"check_refuses_a_cut_reader_at_its_end", "check", {"(pack \"a\" (yes) ", "(shape)"}, REFUSES(FORM_SYNTAX, 1, 16)},
    {"check_refuses_a_shape_for_a_reader", "check", {"(shape)", "(shape)"}, REFUSES(FORM_SYNTAX, 1, 1)},
    {"check_refuses_a_reader_for_a_shape", "check", {"(yes)", "(yes)"}, REFUSES(FORM_SYNTAX, 2, 1)},
    {"check_refuses_a_broken_reader_before_a_broken_shape", "check", {"(int)", "(shape dec)"}, REFUSES(FORM_SYNTAX, 1, 4)},
    {"check_refuses_a_broken_shape_before_a_kind_that_is_not_wanted", "check", {"(int (it 0))", "(shape text"}, REFUSES(FORM_SYNTAX, 2, 11)},

    /* a text with no token */
    {"check_takes_an_empty_reader_for_none", "check", {"", S1}, WRITES("(shape null)")},
    {"check_takes_a_blank_reader_for_none", "check", {" \t\r\n", "(shape)"}, WRITES("(shape null)")},
    {"check_refuses_an_empty_shape_behind_an_empty_reader", "check", {"", ""}, REFUSES(FORM_SYNTAX, 2, 0)},
    {"check_refuses_a_blank_shape_at_its_end", "check", {"\n", "  "}, REFUSES(FORM_SYNTAX, 2, 2)},
    {"check_refuses_a_lone_bracket_at_the_end", "check", {" (", "(shape)"}, REFUSES(FORM_SYNTAX, 1, 2)},
    {"check_refuses_none_without_its_bracket_at_the_end", "check", {"(none", "(shape)"}, REFUSES(FORM_SYNTAX, 1, 5)},
    {"check_takes_a_byte_order_mark_for_a_word", "check", {"\xEF\xBB\xBF", "(shape)"}, REFUSES(FORM_SYNTAX, 1, 0)},
    {"check_takes_a_space_that_is_not_json_s_for_a_word", "check", {" \xC2\xA0", "(shape)"}, REFUSES(FORM_SYNTAX, 1, 1)},
    {"check_takes_a_vertical_tab_for_a_word", "check", {"\n\v", "(shape)"}, REFUSES(FORM_SYNTAX, 1, 1)},
    {"run_gives_null_by_an_empty_reader", "run", {"", "{\"a\":1}"}, GIVES("null", 1)},
    {"run_gives_null_by_a_blank_reader", "run", {"\r\n", "[]"}, GIVES("null", 1)},
    {"run_refuses_an_empty_document_behind_an_empty_reader", "run", {"", ""}, REFUSES(JSON_SYNTAX, 2, 0)},

    /* run: the sample sheet */
    {"run_gives_S2_in_16_steps", "run",
     {"(each (it 0) (when null (field \"bay\" (it 0)) (num 0) (dec (it 0))))", "[{\"bay\":4,\"due\":null},{\"bay\":4.5},{\"due\":\"jan\"}]"},
     GIVES("[4,4.5,0]", 16)},
    {"run_gives_S7_in_3_steps", "run", {"(int (field \"bay\" (it 0)))", "{\"bay\":4}"}, GIVES("4", 3)},
    {"run_is_stuck_on_S7_where_the_member_is_missing", "run", {"(int (field \"bay\" (it 0)))", "{}"}, REFUSES(STUCK, 1, 0)},
    {"run_counts_null_as_in_S8", "run", {"(count (it 0))", "null"}, GIVES("0", 2)},

    /* run: places */
    {"run_reads_a_member", "run", {"(keep (field \"\\u0061\" (it 0)))", "{\"b\":1,\"a\":[2]}"}, GIVES("[2]", 3)},
    {"run_reads_a_missing_member_as_null", "run", {"(keep (field \"c\" (it 0)))", "{\"b\":1,\"a\":[2]}"}, GIVES("null", 3)},
    {"run_is_stuck_at_field_of_no_record", "run", {"(keep (field \"a\" (it 0)))", "[]"}, REFUSES(STUCK, 1, 6)},
    {"run_reads_through_a_missing_member", "run", {"(keep (field \"b\" (field \"a\" (it 0))))", "{}"}, GIVES("null", 4)},
    {"run_reads_through_null", "run", {"(keep (field \"rpm\" (field \"motor\" (it 0))))", "{\"motor\":null}"}, GIVES("null", 4)},
    {"run_reads_through_null_as_deep_as_it_goes", "run", {"(count (field \"c\" (field \"b\" (field \"a\" (it 0)))))", "null"}, GIVES("0", 5)},
    {"run_is_stuck_at_field_of_a_text_in_a_record", "run", {"(keep (field \"b\" (field \"a\" (it 0))))", "{\"a\":\"t\"}"},
     REFUSES(STUCK, 1, 6)},
    {"run_goes_outward_by_it", "run",
     {"(each (it 0) (each (it 0) (pack \"0\" (keep (it 0)) \"1\" (keep (it 1)) \"2\" (count (it 2)))))", "[[1,\"x\"],[]]"},
     GIVES("[[{\"0\":1,\"1\":[1,\"x\"],\"2\":2},{\"0\":\"x\",\"1\":[1,\"x\"],\"2\":2}],[]]", 20)},

    /* run: conversions */
    {"run_keeps_the_digits_of_a_decimal", "run", {"(dec (it 0))", "4.50"}, GIVES("4.50", 2)},
    {"run_gives_an_int_by_dec", "run", {"(dec (it 0))", "-0"}, GIVES("0", 2)},
    {"run_is_stuck_at_int_of_a_decimal", "run", {"(int (it 0))", "4.10"}, REFUSES(STUCK, 1, 0)},
    {"run_gives_an_int_without_its_fraction", "run", {"(int (it 0))", "12.0"}, GIVES("12", 2)},
    {"run_gives_the_int_of_a_negative_zero", "run", {"(int (it 0))", "-0.0"}, GIVES("0", 2)},
    {"run_gives_an_int_with_its_sign", "run", {"(int (it 0))", "-10.000000000"}, GIVES("-10", 2)},
    {"run_gives_the_largest_int_with_a_fraction", "run", {"(int (it 0))", "-99999999999999999.0"}, GIVES("-99999999999999999", 2)},
    {"run_keeps_a_fraction_of_zeros_in_dec", "run", {"(dec (it 0))", "12.0"}, GIVES("12.0", 2)},
    {"run_keeps_a_fraction_of_zeros_in_a_literal", "run", {"(num 12.0)", "null"}, GIVES("12.0", 1)},
    {"run_packs_ints_without_their_fractions", "run", {"(pack \"w\" (int (field \"w\" (it 0))) \"k\" (keep (field \"w\" (it 0))))", "{\"w\":-12.00}"},
     GIVES("{\"w\":-12,\"k\":-12.00}", 7)},
    {"run_gives_bools_and_texts", "run", {"(pack \"a\" (bool (field \"b\" (it 0))) \"t\" (text (field \"t\" (it 0))))", "{\"t\":\"\\u0041\",\"b\":false}"},
     GIVES("{\"a\":false,\"t\":\"A\"}", 7)},
    {"run_is_stuck_at_text_of_null", "run", {"(text (it 0))", "null"}, REFUSES(STUCK, 1, 0)},
    {"run_keeps_whatever_it_is", "run", {"(keep (it 0))", "{\"b\":[1.0,{\"\":null}],\"a\":\"\\/\"}"}, GIVES("{\"b\":[1.0,{\"\":null}],\"a\":\"/\"}", 2)},

    /* run: count and each */
    {"run_counts_elements", "run", {"(count (it 0))", "[[1,2],3,[]]"}, GIVES("3", 2)},
    {"run_is_stuck_at_count_of_a_record", "run", {" (count (it 0))", "{}"}, REFUSES(STUCK, 1, 1)},
    {"run_gives_the_empty_list_by_each_of_null", "run", {"(each (it 0) (int (it 0)))", "null"}, GIVES("[]", 2)},
    {"run_is_stuck_at_each_before_any_part", "run", {"(each (it 0) (yes))", "4"}, REFUSES(STUCK, 1, 0)},
    {"run_is_stuck_at_the_element_that_is_not_wanted", "run", {"(each (it 0) (int (it 0)))", "[1,2,\"3\"]"}, REFUSES(STUCK, 1, 13)},

    /* run: when and if */
    {"run_takes_a_whole_number_for_int", "run", {"(when int (it 0) (yes) (no))", "4"}, GIVES("true", 3)},
    {"run_takes_no_decimal_for_int", "run", {"(when int (it 0) (yes) (no))", "4.000000001"}, GIVES("false", 3)},
    {"run_takes_a_fraction_of_zeros_for_int", "run", {"(when int (it 0) (keep (it 0)) (no))", "12.0"}, GIVES("12.0", 4)},
    {"run_tells_ints_and_decimals_apart", "run", {"(each (it 0) (when int (it 0) (int (it 0)) (dec (it 0))))", "[12.0, 12.5, 12]"},
     GIVES("[12,12.5,12]", 14)},
    {"run_takes_both_for_num", "run", {"(each (it 0) (when num (it 0) (yes) (no)))", "[4,4.0,\"4\"]"}, GIVES("[true,true,false]", 11)},
    {"run_tells_every_kind", "run",
     {"(each (it 0) (when null (it 0) (num 0) (when bool (it 0) (num 1) (when text (it 0) (num 2) (when list (it 0) (num 3)"
      " (when rec (it 0) (num 4) (num 5)))))))", "[null,true,\"\",[],{},7]"},
     GIVES("[0,1,2,3,4,5]", 48)},
    {"run_binds_the_value_in_the_branch_that_it_takes", "run", {"(when text (field \"a\" (it 0)) (keep (it 0)) (keep (it 1)))", "{\"a\":1}"},
     GIVES("{\"a\":1}", 5)},
    {"run_enters_no_branch_but_the_chosen_one", "run", {"(when null (it 0) (none) (int (field \"a\" (it 0))))", "null"}, GIVES("null", 3)},
    {"run_takes_the_second_on_true", "run", {"(if (bool (it 0)) (num 1) (int (it 0)))", "true"}, GIVES("1", 4)},
    {"run_takes_the_third_on_false", "run", {"(if (bool (it 0)) (int (it 0)) (num 2))", "false"}, GIVES("2", 4)},
    {"run_is_stuck_at_if_right_behind_its_condition", "run", {"(if (keep (it 0)) (int (it 0)) (no))", "null"}, REFUSES(STUCK, 1, 0)},
    {"run_is_stuck_in_a_condition", "run", {"(if (bool (it 0)) (yes) (no))", "null"}, REFUSES(STUCK, 1, 4)},

    /* run: literals and pack */
    {"run_gives_literals_as_plain_json", "run",
     {"(pack \"\\n\" (num -0) \"b\" (num -4.50) \"a\" (str \"\\u00e9\\\"\") \"y\" (yes) \"n\" (no) \"x\" (none))", "0"},
     GIVES("{\"\\n\":0,\"b\":-4.50,\"a\":\"\xC3\xA9\\\"\",\"y\":true,\"n\":false,\"x\":null}", 7)},
    {"run_packs_in_the_order_of_the_reader", "run", {"(pack \"b\" (yes) \"a\" (pack) \"c\" (no))", "0"}, GIVES("{\"b\":true,\"a\":{},\"c\":false}", 4)},
    {"run_names_what_it_keeps_anew", "run",
     {"(pack \"x\" (keep (field \"a\" (it 0))))", "{\"a\":{\"a\":[{\"a\":1}]}}"}, GIVES("{\"x\":{\"a\":[{\"a\":1}]}}", 4)},

    /* run: texts */
    {"run_refuses_a_broken_reader_before_a_broken_document", "run", {"(int)", "[1,]"}, REFUSES(FORM_SYNTAX, 1, 4)},
    {"run_refuses_a_broken_document_in_the_second_text", "run", {"(yes)", "[1,]"}, REFUSES(JSON_SYNTAX, 2, 3)},
    {"run_refuses_an_exponent", "run", {"(yes)", "[1e5]"}, REFUSES(NUMBER_LIMIT, 2, 1)},
    {"run_refuses_a_second_name", "run", {"(yes)", "{\"a\":1,\"\\u0061\":2}"}, REFUSES(DUPLICATE_NAME, 2, 7)},
    {"run_refuses_a_broken_document_before_it_is_stuck", "run", {"(int (it 0))", "[] ]"}, REFUSES(JSON_SYNTAX, 2, 3)},
};

static void a_zero_byte_is_a_word_of_no_reader(void)
{
    const struct bytes texts[] = {BYTES("(yes\0)"), BYTES("(shape)")};
    const struct outcome expected = {.number = RUNVESTOL_FORM_SYNTAX, .text = 1, .place = 1};
    expect_of_texts(operation_named("check"), texts, 9, &expected);
    expect_of_texts(operation_named("run"), texts, 9, &expected);
}

void readers_suite(void)
{
    run_table(cases, sizeof cases / sizeof *cases);
    RUN(a_zero_byte_is_a_word_of_no_reader);
}
