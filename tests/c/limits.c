/* Shapes at their limits, read and written: 512 and 513 forms, 32 and 33 levels, 16,384 and 16,385 bytes. */
#include <string.h>

#include "bounds.h"
#include "calls.h"
#include "check.h"
#include "draft.h"
#include "runvestol.h"
#include "suites.h"

static const struct bytes nothing = BYTES("(shape)");

/* ---- forms */

static void a_shape_of_512_forms_is_read_and_written(void)
{
    put_members(&first, 0, FORMS - 1, 1, "(shape)");
    put_written_members(FORMS - 1, "(shape)");
    expect_result("join", drafted(&first), nothing);
    expect_result("join", nothing, drafted(&first));
    expect_result("join", drafted(&first), drafted(&first));
    expect_verdict("below", drafted(&first), drafted(&first), true);
    expect_verdict("below", nothing, drafted(&first), true);
    expect_verdict("below", drafted(&first), nothing, false);
    expect_verdict("admits", drafted(&first), bytes_of("{}"), false);
    put_written_members(FORMS - 1, "(shape null)");
    expect_result("infer", drafted(&first), bytes_of("{}"));
    expect_verdict("admits", drafted(&result), bytes_of("{\"510\":null}"), true);
}

static void the_513th_form_is_refused_at_its_bracket(void)
{
    size_t place = put_members(&first, 0, FORMS, 1, "(shape)");
    expect_text_refused(SHAPE, drafted(&first), RUNVESTOL_FORM_LIMIT, place);
    first.length = place;
    put(&first, "( what follows does not matter");
    expect_text_refused(SHAPE, drafted(&first), RUNVESTOL_FORM_LIMIT, place);
    first.length = place;
    put(&first, "shape");
    expect_text_refused(SHAPE, drafted(&first), RUNVESTOL_FORM_SYNTAX, place);
}

/* Even and odd names in turns, so that each of the second shape's takes its place amid the first's. */
static void expect_interleaved(size_t count, void (*expect)(const char *, struct bytes, struct bytes))
{
    put_members(&first, 0, count, 2, "(shape)");
    put_members(&second, 1, count, 2, "(shape)");
    put_written_members(count, "(shape null)");
    expect("join", drafted(&first), drafted(&second));
    expect("join", drafted(&second), drafted(&first));
}

static void a_joined_shape_of_512_forms_is_written_and_one_of_513_is_too_large(void)
{
    expect_interleaved(FORMS - 1, expect_result);
    expect_interleaved(FORMS, expect_too_large);
}

static void joins_of_up_to_80_members_are_written(void)
{
    for (size_t count = 0; count <= 80; count++)
        expect_interleaved(count, expect_result);
}

/* A document: a record whose members are numbers from 0 on, each with that value. */
static void put_record(struct draft *to, size_t count, const char *value)
{
    to->length = 0;
    for (size_t i = 0; i < count; i++) {
        put(to, i == 0 ? "{\"" : ",\"");
        put_number(to, i, 3);
        put(to, "\":");
        put(to, value);
    }
    put(to, "}");
}

static void an_inferred_shape_of_512_forms_is_written(void)
{
    put_record(&second, FORMS - 1, "4");
    put_written_members(FORMS - 1, "(shape int)");
    expect_result("infer", nothing, drafted(&second));
    expect_verdict("admits", drafted(&result), drafted(&second), true);
    put_members(&first, 0, FORMS - 1, 3, "(shape)");
    put_record(&second, FORMS - 1, "null");
    put_written_members(FORMS - 1, "(shape null)");
    expect_result("infer", drafted(&first), drafted(&second));
}

/* A member more than there is room for, which a sample brings, at the front, amid and at the end. */
static void an_inferred_shape_of_513_forms_is_too_large(void)
{
    put_members(&first, 0, FORMS - 1, 1, "(shape)");
    expect_too_large("infer", drafted(&first), bytes_of("{\"\":1}"));
    expect_too_large("infer", drafted(&first), bytes_of("{\"2555\":1}"));
    expect_too_large("infer", drafted(&first), bytes_of("{\"x\":1}"));
    expect_too_large("infer", drafted(&first), bytes_of("[]"));
    put_members(&first, 0, FORMS - 2, 1, "(shape)");
    expect_too_large("infer", drafted(&first), bytes_of("{\"x\":[]}"));
}

/* Both texts are judged before their join: a wrong last byte goes before the member that is one too many. */
static void a_broken_second_text_is_refused_before_too_large_a_shape(void)
{
    const struct outcome broken_document = {.number = RUNVESTOL_JSON_SYNTAX, .text = 2, .place = 8};
    const struct outcome broken_shape = {.number = RUNVESTOL_FORM_SYNTAX, .text = 2, .place = 36};
    put_members(&first, 0, FORMS - 1, 1, "(shape)");
    expect_call("infer", drafted(&first), bytes_of("{\"x\":1} ?"), &broken_document);
    expect_call("join", drafted(&first), bytes_of("(shape rec (member \"x\" (shape int)))?"), &broken_shape);
}

/* An empty list is one value and two forms. */
static void a_document_of_few_values_may_have_too_large_a_shape(void)
{
    put_record(&second, FORMS / 2 - 1, "[]");
    put_written_members(FORMS / 2 - 1, "(shape list\n   (shape))");
    expect_result("infer", nothing, drafted(&second));
    put_record(&second, FORMS / 2, "[]");
    expect_too_large("infer", nothing, drafted(&second));
    put_record(&second, FORMS - 1, "[]");
    expect_too_large("infer", nothing, drafted(&second));
}

/* ---- nesting */

/* A document: so many lists in each other around a value. */
static void put_list_document(struct draft *to, size_t lists, const char *innermost)
{
    to->length = 0;
    put_times(to, "[", lists);
    put(to, innermost);
    put_times(to, "]", lists);
}

static void a_shape_of_32_levels_is_read_and_written(void)
{
    put_lists(&first, LEVELS);
    put_written_lists(LEVELS, "(shape)");
    expect_result("join", drafted(&first), nothing);
    expect_result("join", nothing, drafted(&first));
    expect_result("join", drafted(&first), drafted(&first));
    expect_verdict("below", drafted(&first), drafted(&first), true);
    put_list_document(&second, LEVELS - 1, "");
    expect_result("infer", drafted(&first), drafted(&second));
    expect_verdict("admits", drafted(&first), drafted(&second), true);
    put_list_document(&second, LEVELS - 1, "null");
    expect_verdict("admits", drafted(&first), drafted(&second), false);
    put_written_lists(LEVELS, "(shape null)");
    expect_result("infer", drafted(&first), drafted(&second));
    expect_verdict("below", drafted(&result), drafted(&first), false);
    expect_verdict("below", drafted(&first), drafted(&result), true);
}

static void a_form_at_level_33_is_refused_at_its_bracket(void)
{
    put_lists(&first, LEVELS + 1);
    expect_text_refused(SHAPE, drafted(&first), RUNVESTOL_FORM_LIMIT, LEVELS * strlen("(shape list "));
}

static void members_count_for_no_level_of_their_own(void)
{
    static const char level[] = "(shape rec (member \"a\" ";
    for (size_t levels = LEVELS; levels <= LEVELS + 1; levels++) {
        first.length = 0;
        put_times(&first, level, levels - 1);
        put(&first, "(shape)");
        put_times(&first, "))", levels - 1);
        if (levels > LEVELS)
            expect_text_refused(SHAPE, drafted(&first), RUNVESTOL_FORM_LIMIT, LEVELS * strlen(level));
        else
            expect_verdict("below", drafted(&first), drafted(&first), true);
    }
}

static void a_scalar_in_31_lists_has_a_shape_of_32_levels(void)
{
    put_list_document(&second, LEVELS - 1, "4.5");
    put_written_lists(LEVELS, "(shape int dec)");
    expect_result("infer", nothing, drafted(&second));
}

/* S10 of the sample sheet: the innermost is empty, and has an element of no kind. */
static void the_shape_of_32_lists_is_too_large(void)
{
    put_list_document(&second, LEVELS, "");
    expect_too_large("infer", nothing, drafted(&second));
    put_lists(&first, LEVELS);
    expect_too_large("infer", drafted(&first), drafted(&second));
    expect_verdict("admits", drafted(&first), drafted(&second), false);
}

/* Records in each other: at level 32 an empty one has no form below it, and an empty list has one. */
static void an_empty_record_at_level_32_is_written_and_an_empty_list_is_too_large(void)
{
    result.length = second.length = 0;
    for (size_t i = 1; i < LEVELS; i++) {
        put(&second, "{\"a\":");
        put(&result, "(shape rec\n");
        put_times(&result, " ", 2 * i - 1);
        put(&result, "(member \"a\"\n");
        put_times(&result, " ", 2 * i);
    }
    size_t innermost = second.length;
    put(&second, "{}");
    put_times(&second, "}", LEVELS - 1);
    put(&result, "(shape rec");
    put_times(&result, "))", LEVELS - 1);
    put(&result, ")\n");
    expect_result("infer", nothing, drafted(&second));
    expect_result("infer", drafted(&result), drafted(&second));
    expect_verdict("admits", drafted(&result), drafted(&second), true);
    second.bytes[innermost] = '[';
    second.bytes[innermost + 1] = ']';
    expect_too_large("infer", nothing, drafted(&second));
    expect_too_large("infer", drafted(&result), drafted(&second));
    expect_verdict("admits", drafted(&result), drafted(&second), false);
}

/* ---- bytes */

/* Given with less white space than it is written with: a text may hold a shape that is too long to be written. */
static void put_given_name(size_t name)
{
    put_long_name(&first, "(shape rec(member\"", name, "\"(shape int)))");
    put_long_name(&second, "{\"", name, "\":4}");
}

static void a_shape_of_16384_bytes_is_written(void)
{
    size_t name = longest_name();
    put_given_name(name);
    EXPECT(put_written_name(name) == BYTES_MOST);
    expect_result("join", drafted(&first), nothing);
    expect_result("join", nothing, drafted(&first));
    expect_result("join", drafted(&result), drafted(&first));
    expect_result("infer", drafted(&first), drafted(&second));
    expect_result("infer", drafted(&result), drafted(&second));
    expect_result("infer", nothing, drafted(&second));
    expect_verdict("below", drafted(&result), drafted(&first), true);
    expect_verdict("admits", drafted(&result), drafted(&second), true);
}

static void a_shape_of_16385_bytes_is_too_large_to_be_written(void)
{
    put_given_name(longest_name() + 1);
    expect_too_large("join", drafted(&first), nothing);
    expect_too_large("join", nothing, drafted(&first));
    expect_too_large("infer", drafted(&first), drafted(&second));
    expect_too_large("infer", nothing, drafted(&second));
    expect_verdict("below", drafted(&first), drafted(&first), true);
    expect_verdict("admits", drafted(&first), drafted(&second), true);
}

static void a_word_more_is_too_many_bytes(void)
{
    size_t name = longest_name();
    put_given_name(name);
    put_written_name(name);
    expect_too_large("join", drafted(&result), bytes_of("(shape null)"));
    expect_too_large("infer", drafted(&first), bytes_of("null"));
    expect_too_large("infer", drafted(&result), bytes_of("{}"));
}

/* ---- both texts as long as may be */

/* A document of 511 texts; with the shape of one long name, about as many bytes of texts and names as two texts hold. */
static void put_list_of_texts(struct draft *to)
{
    to->length = 0;
    for (size_t i = 0; i < FORMS - 1; i++) {
        put(to, i == 0 ? "[\"" : ",\"");
        put_times(to, "b", 29);
        put(to, "\"");
    }
    put(to, "]");
}

/* Or with a name to each: 511 members, a name of 17 bytes and a text of 9. */
static void put_record_of_texts(struct draft *to)
{
    to->length = 0;
    for (size_t i = 0; i < FORMS - 1; i++) {
        put(to, i == 0 ? "{\"" : ",\"");
        put_number(to, i, 17);
        put(to, "\":\"bbbbbbbbb\"");
    }
    put(to, "}");
}

static void texts_and_names_in_two_texts_of_full_length_are_read(void)
{
    static const char front[] = "(shape list rec\n (shape text)\n (member \"", back[] = "\"\n  (shape int)))\n";
    size_t name = BYTES_MOST - strlen(front) - strlen(back);
    put_long_name(&result, front, name, back);
    put_given_name(name);
    put_times(&first, " ", BYTES_MOST - first.length);
    put_list_of_texts(&second);
    put_times(&second, " ", BYTES_MOST - second.length);
    expect_result("infer", drafted(&first), drafted(&second));
    expect_result("infer", drafted(&result), drafted(&second));
    expect_result("join", drafted(&result), drafted(&first));
    expect_verdict("admits", drafted(&result), drafted(&second), true);
    expect_verdict("admits", drafted(&first), drafted(&second), false);
    expect_verdict("below", drafted(&first), drafted(&result), true);
    put_record_of_texts(&second);
    put_times(&second, " ", BYTES_MOST - second.length);
    expect_too_large("infer", drafted(&first), drafted(&second));
    expect_verdict("admits", drafted(&result), drafted(&second), false);
}

/* A record of 511 members, a name of 9 bytes and a text of 17, and a name of 30 that is left open: 2,559 words of eight. */
static void put_record_left_open(struct draft *to)
{
    to->length = 0;
    put(to, "{");
    for (size_t i = 0; i < FORMS - 1; i++) {
        put(to, "\"");
        put_number(to, i, 9);
        put(to, "\":\"bbbbbbbbbbbbbbbbb\",");
    }
    put(to, "\"");
    put_times(to, "c", 30);
}

/* The texts that docs/WORK-SLICES.md has for the most words of the pool. */
static void texts_that_fill_the_most_words_have_their_answers(void)
{
    const struct outcome no_shape = {.number = RUNVESTOL_FORM_SYNTAX, .text = 2};
    const struct outcome left_open = {.number = RUNVESTOL_JSON_SYNTAX, .text = 2, .place = BYTES_MOST};
    put_long_name(&first, "(shape rec(member\"", 16356, "\"(shape)))");
    put_long_name(&second, "\"", BYTES_MOST - 1, "");
    EXPECT(first.length == BYTES_MOST && second.length == BYTES_MOST);
    expect_text_refused(SHAPE, drafted(&second), RUNVESTOL_FORM_SYNTAX, 0);
    expect_call("join", drafted(&first), drafted(&second), &no_shape);
    expect_call("below", drafted(&first), drafted(&second), &no_shape);
    expect_verdict("below", drafted(&first), drafted(&first), true);
    expect_too_large("join", drafted(&first), drafted(&first));
    put_record_left_open(&second);
    EXPECT(second.length == BYTES_MOST);
    expect_call("infer", drafted(&first), drafted(&second), &left_open);
    expect_call("admits", drafted(&first), drafted(&second), &left_open);
}

void limits_suite(void)
{
    RUN(a_shape_of_512_forms_is_read_and_written);
    RUN(the_513th_form_is_refused_at_its_bracket);
    RUN(a_joined_shape_of_512_forms_is_written_and_one_of_513_is_too_large);
    RUN(joins_of_up_to_80_members_are_written);
    RUN(an_inferred_shape_of_512_forms_is_written);
    RUN(an_inferred_shape_of_513_forms_is_too_large);
    RUN(a_broken_second_text_is_refused_before_too_large_a_shape);
    RUN(a_document_of_few_values_may_have_too_large_a_shape);
    RUN(a_shape_of_32_levels_is_read_and_written);
    RUN(a_form_at_level_33_is_refused_at_its_bracket);
    RUN(members_count_for_no_level_of_their_own);
    RUN(a_scalar_in_31_lists_has_a_shape_of_32_levels);
    RUN(the_shape_of_32_lists_is_too_large);
    RUN(an_empty_record_at_level_32_is_written_and_an_empty_list_is_too_large);
    RUN(a_shape_of_16384_bytes_is_written);
    RUN(a_shape_of_16385_bytes_is_too_large_to_be_written);
    RUN(a_word_more_is_too_many_bytes);
    RUN(texts_and_names_in_two_texts_of_full_length_are_read);
    RUN(texts_that_fill_the_most_words_have_their_answers);
}
