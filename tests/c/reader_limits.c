/* Readers at their limits, and what comes of them at its own: 512 and 513 forms, 32 and 33 levels, 16,384 and 16,385 bytes. */
#include <string.h>

#include "bounds.h"
#include "calls.h"
#include "check.h"
#include "draft.h"
#include "runvestol.h"
#include "suites.h"

static const struct bytes nothing = BYTES("(shape)");

/* ---- forms */

static void a_reader_of_512_forms_is_checked(void)
{
    put_pack(&first, FORMS - 1, "(yes)");
    put_written_members(FORMS - 1, "(shape bool)");
    expect_result("check", drafted(&first), nothing);
    put_pack(&first, (FORMS - 2) / 2, "(int (it 0))");
    put_written_members((FORMS - 2) / 2, "(shape int)");
    expect_result("check", drafted(&first), bytes_of("(shape int)"));
}

static void the_513th_form_of_a_reader_is_refused_at_its_bracket(void)
{
    size_t place = put_pack(&first, FORMS, "(yes)");
    expect_text_refused(READER, drafted(&first), RUNVESTOL_FORM_LIMIT, place);
    first.length = place;
    put(&first, "( what follows does not matter");
    expect_text_refused(READER, drafted(&first), RUNVESTOL_FORM_LIMIT, place);
    first.length = place;
    put(&first, "yes");
    expect_text_refused(READER, drafted(&first), RUNVESTOL_FORM_SYNTAX, place);
    place = put_pack(&first, FORMS / 2, "(int (it 0))");
    expect_text_refused(READER, drafted(&first), RUNVESTOL_FORM_LIMIT, place + strlen("(int "));
}

/* Names that come in turns, from the last to the first and amid, so that each takes its place in the result. */
static void names_of_pack_in_any_order_are_written_in_theirs(void)
{
    /* 511 is 7 times 73: steps that have neither in them come to each number once */
    static const size_t steps[] = {1, 2, 51, 100, 256, 509, 510};
    for (size_t s = 0; s < sizeof steps / sizeof *steps; s++) {
        first.length = 0;
        put(&first, "(pack");
        for (size_t i = 0, at = 0; i < FORMS - 1; i++, at = (at + steps[s]) % (FORMS - 1)) {
            put(&first, "\"");
            put_number(&first, FORMS - 2 - at, 3);
            put(&first, "\"(none)");
        }
        put(&first, ")");
        put_written_members(FORMS - 1, "(shape null)");
        expect_result("check", drafted(&first), nothing);
    }
}

static void a_result_of_512_forms_is_written_and_one_of_513_is_too_large(void)
{
    put_members(&second, 0, FORMS - 1, 1, "(shape)");
    put_written_members(FORMS - 1, "(shape)");
    expect_result("check", bytes_of("(keep (it 0))"), drafted(&second));
    expect_too_large("check", bytes_of("(pack \"a\" (keep (it 0)))"), drafted(&second));
    expect_too_large("check", bytes_of("(when rec (it 0) (keep (it 0)) (pack \"x\" (yes)))"), drafted(&second));
    expect_too_large("check", bytes_of("(if (yes) (pack \"\" (yes)) (keep (it 0)))"), drafted(&second));
}

/* ---- results that meet in one */

/* The document's shape in both branches, so many times in each other in the first or in the second branch. */
static void put_branches(struct draft *to, size_t levels, bool in_second)
{
    to->length = 0;
    for (size_t i = 0; i < levels; i++) {
        put(to, "(when rec (it ");
        put_number(to, in_second ? i : 0, 1);
        put(to, in_second ? ") (keep (it 0)) " : ") ");
    }
    put(to, "(keep (it ");
    put_number(to, in_second ? levels : 0, 1);
    put(to, "))");
    put_times(to, in_second ? ")" : " (keep (it 1)))", levels);
}

/* Thirty results of 401 forms wait for each other in 118 forms, and come to one of 401. */
static void results_of_401_forms_that_are_joined_stay_401_forms(void)
{
    static const size_t levels[] = {1, 2, 8, 29, 30};
    put_members(&second, 0, 400, 1, "(shape int)");
    put_written_members(400, "(shape int)");
    for (size_t i = 0; i < sizeof levels / sizeof *levels; i++) {
        put_branches(&first, levels[i], false);
        expect_result("check", drafted(&first), drafted(&second));
        put_branches(&first, levels[i], true);
        expect_result("check", drafted(&first), drafted(&second));
    }
    put_branches(&first, LEVELS - 1, false);
    expect_text_refused(READER, drafted(&first), RUNVESTOL_FORM_LIMIT, (LEVELS - 1) * strlen("(when rec (it 0) ") + strlen("(keep "));
}

/* Names of one branch amid those of the other: 511 members in all are written, and 512 are too many. */
static void members_of_both_branches_are_joined_up_to_512_forms(void)
{
    for (size_t count = FORMS - 2; count <= FORMS; count++) {
        first.length = 0;
        put(&first, "(when null (it 0) (pack");
        for (size_t i = 0; i < count; i += 2) {
            put(&first, " \"");
            put_number(&first, i, 3);
            put(&first, "\" (none)");
        }
        put(&first, ") (keep (it 0)))");
        put_members(&second, 1, count, 2, "(shape)");
        put_written_members(count, "(shape null)");
        if (count < FORMS)
            expect_result("check", drafted(&first), drafted(&second));
        else
            expect_too_large("check", drafted(&first), drafted(&second));
    }
}

/* 9 and 10 are met behind a result that is too large already, and go before 11. */
static void a_form_is_refused_behind_too_large_a_result(void)
{
    static const char front[] = "(pack \"a\" (keep (it 0)) \"b\" (keep (it 0)) \"c\" ";
    const struct outcome unwanted = {.number = RUNVESTOL_UNWANTED_KIND, .text = 1, .place = sizeof front - 1};
    const struct outcome unlisted = {.number = RUNVESTOL_UNLISTED_NAME, .text = 1, .place = sizeof front - 1 + strlen("(keep ")};
    put_members(&second, 0, 400, 1, "(shape int)");
    first.length = 0;
    put(&first, front);
    put(&first, "(int (it 0)))");
    expect_call("check", drafted(&first), drafted(&second), &unwanted);
    first.length = 0;
    put(&first, front);
    put(&first, "(keep (field \"400\" (it 0))))");
    expect_call("check", drafted(&first), drafted(&second), &unlisted);
    first.length = 0;
    put(&first, front);
    put(&first, "(yes))");
    expect_too_large("check", drafted(&first), drafted(&second));
}

/* What a condition gives is no part of the result. */
static void a_condition_takes_no_room(void)
{
    first.length = 0;
    put_times(&first, "(if ", 10);
    put(&first, "(when rec (it 0) (yes) (no))");
    put_times(&first, " (when rec (it 0) (yes) (no)) (no))", 9);
    put(&first, " (keep (it 0)) (keep (it 0)))");
    put_members(&second, 0, FORMS - 1, 1, "(shape)");
    put_written_members(FORMS - 1, "(shape)");
    expect_result("check", drafted(&first), drafted(&second));
}

/* ---- nesting */

/* The result: records in each other around a shape, as they are written. */
static void put_written_records(size_t levels, const char *innermost)
{
    result.length = 0;
    for (size_t i = 0; i < levels; i++) {
        put(&result, "(shape rec\n");
        put_times(&result, " ", 2 * i + 1);
        put(&result, "(member \"a\"\n");
        put_times(&result, " ", 2 * i + 2);
    }
    put(&result, innermost);
    put_times(&result, "))", levels);
    put(&result, "\n");
}

static void a_reader_of_32_levels_is_checked(void)
{
    put_packs(&first, LEVELS - 1, "(yes)");
    put_written_records(LEVELS - 1, "(shape bool)");
    expect_result("check", drafted(&first), nothing);
    put_packs(&first, LEVELS - 2, "(keep (it 0))");
    put_written_records(LEVELS - 2, "(shape text)");
    expect_result("check", drafted(&first), bytes_of("(shape text)"));
}

static void a_form_of_a_reader_at_level_33_is_refused_at_its_bracket(void)
{
    put_packs(&first, LEVELS, "(yes)");
    expect_text_refused(READER, drafted(&first), RUNVESTOL_FORM_LIMIT, LEVELS * strlen("(pack \"a\" "));
    put_packs(&first, LEVELS - 1, "(keep (it 0))");
    expect_text_refused(READER, drafted(&first), RUNVESTOL_FORM_LIMIT, (LEVELS - 1) * strlen("(pack \"a\" ") + strlen("(keep "));
}

/* Fields in each other down a shape of as many levels as may be. */
static void a_place_of_31_levels_is_followed(void)
{
    const struct outcome too_deep = {.number = RUNVESTOL_FORM_LIMIT, .text = 1, .place = strlen("(keep ") + 31 * strlen("(field \"a\" ")};
    second.length = 0;
    put_times(&second, "(shape rec (member \"a\" ", LEVELS - 2);
    put(&second, "(shape int)");
    put_times(&second, "))", LEVELS - 2);
    for (size_t fields = LEVELS - 2; fields <= LEVELS - 1; fields++) {
        first.length = result.length = 0;
        put(&first, "(keep ");
        put_times(&first, "(field \"a\" ", fields);
        put(&first, "(it 0)");
        put_times(&first, ")", fields + 1);
        put(&result, "(shape int)\n");
        if (fields == LEVELS - 2)
            expect_result("check", drafted(&first), drafted(&second));
        else
            expect_call("check", drafted(&first), drafted(&second), &too_deep);
    }
}

static void a_result_of_32_levels_is_written_and_one_of_33_is_too_large(void)
{
    put_lists(&second, LEVELS);
    put_written_lists(LEVELS, "(shape)");
    expect_result("check", bytes_of("(keep (it 0))"), drafted(&second));
    expect_result("check", bytes_of("(each (it 0) (keep (it 0)))"), drafted(&second));
    expect_too_large("check", bytes_of("(pack \"a\" (keep (it 0)))"), drafted(&second));
    expect_too_large("check", bytes_of("(each (it 0) (keep (it 1)))"), drafted(&second));
    expect_too_large("check", bytes_of("(when list (it 0) (none) (pack \"a\" (pack \"b\" (keep (it 1)))))"), drafted(&second));
    put_packs(&first, LEVELS - 2, "(count (it 0))");
    put_written_records(LEVELS - 2, "(shape int)");
    expect_result("check", drafted(&first), drafted(&second));
}

/* ---- bytes */

static void a_result_of_16384_bytes_is_written_and_one_of_16385_is_too_large(void)
{
    size_t name = longest_name();
    put_long_name(&first, "(pack\"", name, "\"(num 4))");
    EXPECT(put_written_name(name) == BYTES_MOST);
    expect_result("check", drafted(&first), nothing);
    expect_result("check", bytes_of("(keep (it 0))"), drafted(&result));
    expect_too_large("check", bytes_of("(if (yes) (keep (it 0)) (none))"), drafted(&result));
    put_long_name(&first, "(pack\"", name + 1, "\"(num 4))");
    expect_too_large("check", drafted(&first), nothing);
}

/* Both texts as long as may be: many short names with a long text, one long name, and a text that is left open. */
static void texts_of_full_length_are_checked(void)
{
    put_full_reader(&first);
    put_long_name(&second, "(shape rec(member\"", 16356, "\"(shape)))");
    EXPECT(first.length == BYTES_MOST && second.length == BYTES_MOST);
    put_written_members(FORMS - 1, "(shape bool)");
    result.length -= strlen("(shape bool)))\n");
    put(&result, "(shape text)))\n");
    expect_result("check", drafted(&first), drafted(&second));
    put_long_name(&first, "(str \"", BYTES_MOST - strlen("(str \""), "");
    expect_text_refused(READER, drafted(&first), RUNVESTOL_FORM_SYNTAX, strlen("(str "));
}

/* 511 names that each begin a word more than they have bytes for, and behind them one that is left open. */
static void names_that_fill_the_most_words_have_their_answers(void)
{
    first.length = 0;
    put(&first, "(pack");
    for (size_t i = 0; i < FORMS - 1; i++) {
        put(&first, "\"");
        put_number(&first, i, 17);
        put(&first, "\"(no)");
    }
    size_t place = first.length;
    put(&first, "\"");
    put_times(&first, "c", BYTES_MOST - first.length);
    put_long_name(&second, "(shape rec(member\"", 16356, "\"(shape)))");
    expect_text_refused(READER, drafted(&first), RUNVESTOL_FORM_SYNTAX, place);
    first.length = place;
    put(&first, ")");
    put_times(&first, " ", BYTES_MOST - first.length);
    expect_too_large("check", drafted(&first), drafted(&second));
}

/* Where the work slices of short texts may end: lengths about the powers of two, with a name that is the same or another. */
static void texts_of_many_lengths_are_checked(void)
{
    const struct outcome unlisted = {.number = RUNVESTOL_UNLISTED_NAME, .text = 1, .place = strlen("(keep")};
    for (size_t power = 256; power <= 8192; power *= 2) {
        for (size_t length = power - 3; length <= power + 3; length++) {
            size_t name = put_shape_of(&second, length);
            put_long_name(&first, "(keep(field\"", name, "\"(it 0)))");
            result.length = 0;
            put(&result, "(shape int)\n");
            expect_result("check", drafted(&first), drafted(&second));
            put_times(&first, " ", power / 2);
            expect_result("check", drafted(&first), drafted(&second));
            put_times(&second, " ", power / 2);
            expect_result("check", drafted(&first), drafted(&second));
            put_long_name(&first, "(keep(field\"", name - 1, "\"(it 0)))");
            expect_call("check", drafted(&first), drafted(&second), &unlisted);
        }
    }
}

void reader_limits_suite(void)
{
    RUN(a_reader_of_512_forms_is_checked);
    RUN(the_513th_form_of_a_reader_is_refused_at_its_bracket);
    RUN(names_of_pack_in_any_order_are_written_in_theirs);
    RUN(a_result_of_512_forms_is_written_and_one_of_513_is_too_large);
    RUN(results_of_401_forms_that_are_joined_stay_401_forms);
    RUN(members_of_both_branches_are_joined_up_to_512_forms);
    RUN(a_form_is_refused_behind_too_large_a_result);
    RUN(a_condition_takes_no_room);
    RUN(a_reader_of_32_levels_is_checked);
    RUN(a_form_of_a_reader_at_level_33_is_refused_at_its_bracket);
    RUN(a_place_of_31_levels_is_followed);
    RUN(a_result_of_32_levels_is_written_and_one_of_33_is_too_large);
    RUN(a_result_of_16384_bytes_is_written_and_one_of_16385_is_too_large);
    RUN(texts_of_full_length_are_checked);
    RUN(names_that_fill_the_most_words_have_their_answers);
    RUN(texts_of_many_lengths_are_checked);
}
