/* Runs at their limits: 512 and 513 values, 32 and 33 levels, 65,536 and 65,537 steps, results of any length. */
#include <stdlib.h>
#include <string.h>

#include "bounds.h"
#include "calls.h"
#include "check.h"
#include "draft.h"
#include "runvestol.h"
#include "suites.h"

enum { VALUES = 512, STEPS = 65536 };

/* Expects a result after so many steps, and a refusal where the output is one byte short. */
static void expect_given(struct bytes reader, struct bytes document, struct bytes given, uint64_t steps)
{
    const struct bytes texts[] = {reader, document};
    const struct outcome done = {.length = given.length, .steps = steps, .written = given};
    const struct outcome too_short = {.number = RUNVESTOL_OUTPUT_TOO_SHORT, .length = given.length};
    expect_of_texts(operation_named("run"), texts, given.length, &done);
    expect_of_texts(operation_named("run"), texts, given.length - 1, &too_short);
}

/* Expects a refusal, whatever the output. */
static void expect_refused(struct bytes reader, struct bytes document, const struct outcome *refused)
{
    const struct bytes texts[] = {reader, document};
    expect_of_texts(operation_named("run"), texts, 0, refused);
    expect_of_texts(operation_named("run"), texts, BYTES_MOST, refused);
}

static void expect_too_many_values(struct bytes reader, struct bytes document)
{
    const struct outcome refused = {.number = RUNVESTOL_RESULT_LIMIT};
    expect_refused(reader, document, &refused);
}

static void expect_refused_at(struct bytes reader, struct bytes document, uint64_t number, size_t place)
{
    const struct outcome refused = {.number = number, .text = 1, .place = place};
    expect_refused(reader, document, &refused);
}

/* A document: a list of so many elements. */
static struct bytes put_list(struct draft *to, size_t count, const char *element)
{
    to->length = 0;
    for (size_t i = 0; i < count; i++) {
        put(to, i == 0 ? "[" : ",");
        put(to, element);
    }
    put(to, count == 0 ? "[]" : "]");
    return drafted(to);
}

/* ---- values */

static void a_result_of_512_values_is_written_and_one_of_513_is_too_large(void)
{
    const struct bytes all = put_list(&second, VALUES - 1, "7");
    expect_given(bytes_of("(keep (it 0))"), all, all, 2);
    expect_given(bytes_of("(each (it 0) (keep (it 0)))"), all, all, 2 + 2 * (VALUES - 1));
    expect_too_many_values(bytes_of("(pack \"a\" (keep (it 0)))"), all);
    expect_too_many_values(bytes_of("(each (it 0) (pack \"a\" (int (it 0))))"), all);
    put_pack(&first, VALUES - 1, "(none)");
    result.length = 0;
    for (size_t i = 0; i < VALUES - 1; i++) {
        put(&result, i == 0 ? "{\"" : ",\"");
        put_number(&result, i, 3);
        put(&result, "\":null");
    }
    put(&result, "}");
    expect_given(drafted(&first), bytes_of("0"), drafted(&result), VALUES);
}

/* A list of n, n times: n * (n + 1) + 1 values and 3 * n + 2 steps. */
static void results_that_grow_by_copies_are_counted_whole(void)
{
    for (size_t count = 21; count <= 23; count++) {
        const struct bytes row = put_list(&second, count, "true");
        result.length = 0;
        for (size_t i = 0; i < count; i++) {
            put(&result, i == 0 ? "[" : ",");
            for (size_t j = 0; j < count; j++)
                put(&result, j == 0 ? "[true" : ",true");
            put(&result, "]");
        }
        put(&result, "]");
        if (count * (count + 1) + 1 <= VALUES)
            expect_given(bytes_of("(each (it 0) (keep (it 1)))"), row, drafted(&result), 2 + 2 * count);
        else
            expect_too_many_values(bytes_of("(each (it 0) (keep (it 1)))"), row);
    }
    expect_too_many_values(bytes_of("(each (it 0) (each (it 1) (keep (it 2))))"), put_list(&second, 40, "0"));
}

/* Of a condition's value only the truth is asked: it is no part of the result. */
static void a_condition_makes_no_values(void)
{
    const struct bytes all = put_list(&second, VALUES - 1, "7");
    expect_given(bytes_of("(if (when list (it 0) (yes) (keep (it 0))) (keep (it 0)) (none))"), all, all, 6);
    expect_refused_at(bytes_of("(if (pack \"a\" (keep (it 0)) \"b\" (keep (it 0))) (yes) (no))"), all, RUNVESTOL_STUCK, 0);
    expect_given(bytes_of("(if (if (yes) (no) (yes)) (none) (keep (it 0)))"), all, all, 6);
}

/* 12 and 13 are met behind a result that is too large already, and go before 14. */
static void a_form_is_stuck_behind_too_large_a_result(void)
{
    static const char front[] = "(pack \"a\" (keep (it 0)) \"b\" (keep (it 0)) \"c\" ";
    const struct bytes row = put_list(&second, 300, "0");
    first.length = 0;
    put(&first, front);
    put(&first, "(int (it 0)))");
    expect_refused_at(drafted(&first), row, RUNVESTOL_STUCK, sizeof front - 1);
    first.length = 0;
    put(&first, front);
    put(&first, "(each (it 0) (each (it 1) (no))))");
    expect_refused_at(drafted(&first), row, RUNVESTOL_STEP_LIMIT, sizeof front - 1 + strlen("(each (it 0) (each (it 1) "));
    first.length = 0;
    put(&first, front);
    put(&first, "(yes))");
    expect_too_many_values(drafted(&first), row);
}

/* ---- nesting */

static struct bytes put_nested_lists(struct draft *to, size_t lists)
{
    to->length = 0;
    put_times(to, "[", lists);
    put_times(to, "]", lists);
    return drafted(to);
}

static void a_result_of_32_levels_is_written_and_one_of_33_is_too_large(void)
{
    const struct bytes deep = put_nested_lists(&second, LEVELS);
    expect_given(bytes_of("(keep (it 0))"), deep, deep, 2);
    expect_given(bytes_of("(each (it 0) (keep (it 0)))"), deep, deep, 4);
    expect_too_many_values(bytes_of("(pack \"a\" (keep (it 0)))"), deep);
    expect_too_many_values(bytes_of("(each (it 0) (keep (it 1)))"), deep);
    expect_given(bytes_of("(count (it 0))"), deep, bytes_of("1"), 2);
    put_packs(&first, LEVELS - 1, "(yes)");
    result.length = 0;
    put_times(&result, "{\"a\":", LEVELS - 1);
    put(&result, "true");
    put_times(&result, "}", LEVELS - 1);
    expect_given(drafted(&first), bytes_of("0"), drafted(&result), LEVELS);
    put_packs(&first, LEVELS - 2, "(keep (it 0))");
    expect_too_many_values(drafted(&first), deep);
}

/* ---- steps */

/* A form that gives a bool after so many steps, an odd number, and leaves no other value behind. */
static void put_steps(struct draft *to, size_t steps)
{
    size_t half = steps / 2 | 1, condition = half + 2 > steps ? steps - 2 : half;
    if (steps < 3) {
        put(to, "(yes)");
        return;
    }
    put(to, "(if ");
    put_steps(to, condition);
    put_steps(to, steps - 1 - condition);
    put(to, "(no))");
}

/* A reader of 65,536 steps on 500 elements: 3, 131 for each element, 33; and further ones. Gives the last form's bracket. */
static size_t put_burning(struct draft *to, const char *further)
{
    to->length = 0;
    put(to, "(pack \"e\" (each (it 0) ");
    put_steps(to, 131);
    put(to, ") \"s\" ");
    put_steps(to, 33);
    put(to, " ");
    size_t last = to->length + strlen("\"x\" ");
    put(to, further);
    put(to, ")");
    return last;
}

static void a_run_of_65536_steps_ends_and_step_65537_is_refused_at_its_form(void)
{
    const struct bytes row = put_list(&second, 500, "[]");
    put_burning(&first, "");
    result.length = 0;
    put(&result, "{\"e\":[true");
    put_times(&result, ",true", 499);
    put(&result, "],\"s\":true}");
    expect_given(drafted(&first), row, drafted(&result), STEPS);
    size_t last = put_burning(&first, "\"x\" (none)");
    expect_refused_at(drafted(&first), row, RUNVESTOL_STEP_LIMIT, last);
    last = put_burning(&first, "\"x\" (int (it 0))");
    expect_refused_at(drafted(&first), row, RUNVESTOL_STEP_LIMIT, last);
}

/* With 499 elements there are 131 steps left: a place may be the one too many, and a stuck form comes before it or not. */
static void the_step_limit_is_judged_on_entering_a_form(void)
{
    const struct bytes row = put_list(&second, 499, "{}");
    for (size_t steps = 129; steps <= 131; steps += 2) {
        put_burning(&first, "");
        first.length--;
        put(&first, "\"y\" ");
        put_steps(&first, steps);
        put(&first, "\"x\" ");
        size_t last = first.length;
        put(&first, "(int (field \"a\" (it 0))))");
        if (steps == 131)
            expect_refused_at(drafted(&first), row, RUNVESTOL_STEP_LIMIT, last);
        else
            expect_refused_at(drafted(&first), row, RUNVESTOL_STEP_LIMIT, last + strlen("(int (field \"a\" "));
    }
    size_t last = put_burning(&first, "\"x\" (int (it 0))");
    expect_refused_at(drafted(&first), row, RUNVESTOL_STUCK, last);
}

/* n elements in each other: n * (n + 2) + 2 steps, and too many values. */
static void steps_are_counted_past_too_many_values(void)
{
    static const char reader[] = "(each (it 0) (each (it 1) (no)))";
    expect_too_many_values(bytes_of(reader), put_list(&second, 254, "1"));
    expect_refused_at(bytes_of(reader), put_list(&second, 255, "1"), RUNVESTOL_STEP_LIMIT, strlen("(each (it 0) (each (it 1) "));
    expect_refused_at(bytes_of(reader), put_list(&second, 511, "1"), RUNVESTOL_STEP_LIMIT, strlen("(each (it 0) (each (it 1) "));
}

/* ---- bytes */

/* A text of 15,000 bytes 500 times over: the length is told without writing, and lent it is written. */
static void a_result_of_millions_of_bytes_is_measured_and_written(void)
{
    enum { TEXT = 15000, COPIES = 500 };
    static const char reader[] = "(each (field \"l\" (it 0)) (text (field \"t\" (it 1))))";
    size_t length = COPIES * (TEXT + 3) + 1;
    uint8_t *copies = malloc(length);
    EXPECT(copies != NULL);
    if (copies == NULL)
        return;
    second.length = 0;
    put(&second, "{\"t\":\"");
    put_times(&second, "n", TEXT);
    put(&second, "\",\"l\":[0");
    put_times(&second, ",0", COPIES - 1);
    put(&second, "]}");
    memset(copies, 'n', length);
    for (size_t i = 0; i < COPIES; i++) {
        uint8_t *copy = copies + i * (TEXT + 3);
        copy[0] = i == 0 ? '[' : ',';
        copy[1] = copy[TEXT + 2] = '"';
    }
    copies[length - 1] = ']';
    expect_given(bytes_of(reader), drafted(&second), (struct bytes){copies, length}, 3 + 3 * COPIES);
    const struct outcome too_short = {.number = RUNVESTOL_OUTPUT_TOO_SHORT, .length = length};
    expect_refused(bytes_of(reader), drafted(&second), &too_short);
    free(copies);
}

/* Each byte of a text has six as it is written. */
static void a_result_is_longer_than_its_texts(void)
{
    enum { TEXT = 2700 };
    first.length = result.length = 0;
    put(&first, "(str \"");
    put_times(&first, "\\u001F", TEXT);
    put(&first, "\")");
    put(&result, "\"");
    put_times(&result, "\\u001f", TEXT);
    put(&result, "\"");
    expect_given(drafted(&first), bytes_of("0"), drafted(&result), 1);
}

/* Both texts as long as may be, with about as many words of names and texts as they can have. */
static void texts_of_full_length_are_run(void)
{
    size_t text = put_full_reader(&first);
    second.length = 0;
    put(&second, "{");
    for (size_t i = 0; i < VALUES - 1; i++) {
        put(&second, "\"");
        put_number(&second, i, 9);
        put(&second, i + 2 < VALUES ? "\":\"bbbbbbbbbbbbbbbbb\"," : "\":\"bbbbbbbbbbbbbbbbb\"}");
    }
    put_times(&second, " ", BYTES_MOST - second.length);
    result.length = 0;
    put(&result, "{");
    for (size_t i = 0; i < FORMS - 2; i++) {
        put(&result, "\"");
        put_number(&result, i, 3);
        put(&result, "\":true,");
    }
    put(&result, "\"510\":\"");
    put_times(&result, "b", text);
    put(&result, "\"}");
    expect_given(drafted(&first), drafted(&second), drafted(&result), FORMS);
    result.length = 0;
    put(&result, "\"bbbbbbbbbbbbbbbbb\"");
    expect_given(bytes_of("(text (field \"000000510\" (it 0)))"), drafted(&second), drafted(&result), 3);
    expect_refused_at(bytes_of("(int (field \"000000511\" (it 0)))"), drafted(&second), RUNVESTOL_STUCK, 0);
}

/* Where the work slices of short texts may end: lengths about the powers of two. */
static void texts_of_many_lengths_are_run(void)
{
    for (size_t power = 256; power <= 8192; power *= 2) {
        for (size_t name = power - 40; name <= power + 3; name++) {
            put_long_name(&first, "(keep(field\"", name, "\"(it 0)))");
            put_long_name(&second, "{\"", name, "\":[4.5]}");
            expect_given(drafted(&first), drafted(&second), bytes_of("[4.5]"), 3);
            put_long_name(&first, "(keep(field\"", name - 1, "\"(it 0)))");
            expect_given(drafted(&first), drafted(&second), bytes_of("null"), 3);
        }
    }
}

void run_limits_suite(void)
{
    RUN(a_result_of_512_values_is_written_and_one_of_513_is_too_large);
    RUN(results_that_grow_by_copies_are_counted_whole);
    RUN(a_condition_makes_no_values);
    RUN(a_form_is_stuck_behind_too_large_a_result);
    RUN(a_result_of_32_levels_is_written_and_one_of_33_is_too_large);
    RUN(a_run_of_65536_steps_ends_and_step_65537_is_refused_at_its_form);
    RUN(the_step_limit_is_judged_on_entering_a_form);
    RUN(steps_are_counted_past_too_many_values);
    RUN(a_result_of_millions_of_bytes_is_measured_and_written);
    RUN(a_result_is_longer_than_its_texts);
    RUN(texts_of_full_length_are_run);
    RUN(texts_of_many_lengths_are_run);
}
