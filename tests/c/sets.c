/* Sets of limits: every end of each range and one past it, numbers of more than 32 bits, each refusal that goes by a number of the
   set, at that number and one over it, and one set beside another. */
#include <string.h>

#include "bounds.h"
#include "calls.h"
#include "check.h"
#include "draft.h"
#include "right.h"
#include "runvestol.h"
#include "suites.h"

static const struct outcome out_of_range = {.number = RUNVESTOL_LIMIT_OUT_OF_RANGE};
static const struct outcome too_short_an_answer = {.number = RUNVESTOL_ANSWER_TOO_SHORT};

static const struct range {
    uint64_t least, most;
} ranges[] = {
    {RUNVESTOL_LEAST_BYTES, RUNVESTOL_MOST_BYTES},
    {RUNVESTOL_LEAST_VALUES, RUNVESTOL_MOST_VALUES},
    {RUNVESTOL_LEAST_NESTING, RUNVESTOL_MOST_NESTING},
    {RUNVESTOL_LEAST_STEPS, RUNVESTOL_MOST_STEPS},
};

enum { RANGES = sizeof ranges / sizeof *ranges };

/* A set with another number in one place. */
static struct limits with_number(const struct limits *set, int which, uint64_t number)
{
    uint64_t numbers[] = {set->bytes, set->values, set->nesting, set->steps};
    numbers[which] = number;
    return (struct limits){numbers[0], numbers[1], numbers[2], numbers[3]};
}

/* Runs on each operation, with each number of the smallest and of the largest set. */
static void for_each_number(void (*run)(const struct operation *operation, const struct limits *set, int which))
{
    for (size_t i = 0; i < operation_count; i++) {
        for (int which = 0; which < RANGES; which++) {
            run(&operations[i], &smallest, which);
            run(&operations[i], &largest, which);
        }
    }
}

/* ---- ends of the ranges */

/* The right call, with every kind of answer buffer and one byte of output too few as well. */
static void expect_right(const struct limits *set, const struct operation *operation)
{
    const struct right_call *right = right_call_of(operation);
    const struct outcome too_short = {.number = RUNVESTOL_OUTPUT_TOO_SHORT, .length = right->outcome.length};
    size_t length = right->outcome.length;
    expect_with(set, operation, right->texts, length, RUNVESTOL_ANSWER_BYTES, &right->outcome);
    expect_with(set, operation, right->texts, length, RUNVESTOL_ANSWER_BYTES + 1, &right->outcome);
    expect_with(set, operation, right->texts, length, RUNVESTOL_ANSWER_BYTES - 1, &too_short_an_answer);
    if (operation->writes)
        expect_at(set, operation, right->texts, length - 1, &too_short);
}

static void expect_right_at_both_ends(const struct operation *operation, const struct limits *set, int which)
{
    const struct limits at_least = with_number(set, which, ranges[which].least);
    const struct limits at_most = with_number(set, which, ranges[which].most);
    const struct limits between = with_number(set, which, (ranges[which].least + ranges[which].most) / 2);
    expect_right(&at_least, operation);
    expect_right(&at_most, operation);
    expect_right(&between, operation);
}

static void both_ends_of_each_range_are_in_it(void)
{
    for_each_number(expect_right_at_both_ends);
}

/* With answer buffers of every kind; of one that is too short only the number is given. */
static void expect_out_of_range(const struct limits *set, const struct operation *operation, const struct bytes *texts)
{
    static const size_t answers[] = {0, 1, RUNVESTOL_ANSWER_BYTES - 1, RUNVESTOL_ANSWER_BYTES, RUNVESTOL_ANSWER_BYTES + 1};
    for (size_t i = 0; i < sizeof answers / sizeof *answers; i++) {
        expect_with(set, operation, texts, 0, answers[i], &out_of_range);
        expect_with(set, operation, texts, 100, answers[i], &out_of_range);
    }
}

static void expect_refused_past_both_ends(const struct operation *operation, const struct limits *set, int which)
{
    const uint64_t least = ranges[which].least, most = ranges[which].most, one = 1;
    const uint64_t wrong[] = {
        least - 1, most + 1, 0, (one << 32) + least, (one << 32) + RUNVESTOL_LEAST_BYTES, (one << 63) + least, UINT64_MAX,
    };
    for (size_t i = 0; i < sizeof wrong / sizeof *wrong; i++) {
        const struct limits wrong_set = with_number(set, which, wrong[i]);
        expect_out_of_range(&wrong_set, operation, right_call_of(operation)->texts);
    }
}

static void a_number_past_an_end_is_refused_whatever_its_use(void)
{
    for_each_number(expect_refused_past_both_ends);
}

static void numbers_that_are_all_wrong_are_refused_once(void)
{
    const struct limits none = {0, 0, 0, 0}, beyond = {UINT64_MAX, UINT64_MAX, UINT64_MAX, UINT64_MAX};
    const struct limits turned = {RUNVESTOL_MOST_STEPS, RUNVESTOL_MOST_NESTING, RUNVESTOL_MOST_VALUES, RUNVESTOL_MOST_BYTES};
    for (size_t i = 0; i < operation_count; i++) {
        const struct bytes *texts = right_call_of(&operations[i])->texts;
        expect_out_of_range(&none, &operations[i], texts);
        expect_out_of_range(&beyond, &operations[i], texts);
        expect_out_of_range(&turned, &operations[i], texts);
    }
}

/* Texts that are broken, empty or too long for any set. */
static void a_wrong_set_goes_before_everything_in_the_texts(void)
{
    static uint8_t spaces[BYTES_MOST + 1];
    const struct limits wrong = with_number(&smallest, 3, RUNVESTOL_LEAST_STEPS - 1);
    memset(spaces, ' ', sizeof spaces);
    for (size_t i = 0; i < operation_count; i++) {
        const struct bytes long_text = {spaces, sizeof spaces}, empty = {spaces, 0};
        const struct bytes broken[] = {broken_text(&operations[i], 0), broken_text(&operations[i], text_count(&operations[i]) - 1)};
        expect_out_of_range(&wrong, &operations[i], (const struct bytes[]){long_text, long_text});
        expect_out_of_range(&wrong, &operations[i], (const struct bytes[]){empty, empty});
        expect_out_of_range(&wrong, &operations[i], broken);
    }
}

static void a_wrong_set_is_refused_with_null_for_all_buffers(void)
{
    for (size_t i = 0; i < operation_count; i++) {
        struct loan loan = {.limits = with_number(&largest, 2, 33), .texts = {lend_null(), lend_null()},
                            .output = lend_null(), .answer = lend_null()};
        expect_outcome(&operations[i], &loan, &out_of_range);
        loan.limits = smallest;
        expect_outcome(&operations[i], &loan, &too_short_an_answer);
    }
}

/* ---- at a number of the set, and one over it */

/* Each lets through texts that have as many values or levels as it says: nesting leaves room in values, and these in bytes. */
static const struct limits sets[] = {
    {RUNVESTOL_SMALLEST}, {1025, 17, 5, 257}, {2000, 40, 32, 65536}, {2000, 23, 7, 300}, {16384, 16, 4, 256}, {4097, 100, 31, 1000},
    {16383, 511, 4, 256}, {16384, 512, 31, 65535}, {RUNVESTOL_LARGEST},
};

/* The one that is tried now. */
static const struct limits *set;

static void for_each_set(void (*run)(void))
{
    for (set = sets; set < sets + sizeof sets / sizeof *sets; set++)
        run();
}

/* Holds a call to its outcome, with an output as long as what is written. */
static void expect_here(const char *operation, struct bytes text_1, struct bytes text_2, const struct outcome *expected)
{
    const struct bytes texts[] = {text_1, text_2};
    expect_at(set, operation_named(operation), texts, expected->written.length, expected);
}

static void expect_written(const char *operation, struct bytes text_1, struct bytes text_2, struct bytes written, uint64_t steps)
{
    const struct outcome done = {.length = written.length, .steps = steps, .written = written};
    expect_here(operation, text_1, text_2, &done);
}

/* Expects a refusal of a text of that kind wherever a call takes one. */
static void expect_refused_here(enum text_kind kind, struct bytes text, uint64_t number, size_t place)
{
    for (size_t i = 0; i < operation_count; i++) {
        for (int which = 0; which < text_count(&operations[i]); which++) {
            const struct right_call *right = right_call_of(&operations[i]);
            const struct outcome refused = {.number = number, .text = (uint64_t)which + 1, .place = place};
            struct bytes texts[] = {right->texts[0], right->texts[1]};
            texts[which] = text;
            if (operations[i].texts[which] == kind)
                expect_at(set, &operations[i], texts, 9, &refused);
        }
    }
}

/* A list of so many ones. */
static struct bytes put_ones(struct draft *to, size_t count)
{
    to->length = 0;
    put(to, count == 0 ? "[" : "[1");
    put_times(to, ",1", count == 0 ? 0 : count - 1);
    put(to, "]");
    return drafted(to);
}

static struct bytes put_nested(struct draft *to, size_t lists)
{
    to->length = 0;
    put_times(to, "[", lists);
    put_times(to, "]", lists);
    return drafted(to);
}

static void expect_texts_up_to_the_bytes(void)
{
    for (size_t i = 0; i < operation_count; i++) {
        for (int which = 0; which < text_count(&operations[i]); which++) {
            const struct right_call *right = right_call_of(&operations[i]);
            const struct outcome too_long = {.number = RUNVESTOL_TEXT_TOO_LONG, .text = (uint64_t)which + 1};
            struct bytes texts[] = {right->texts[0], right->texts[1]};
            first.length = 0;
            put_times(&first, " ", set->bytes - texts[which].length);
            memcpy(first.bytes + first.length, texts[which].at, texts[which].length);
            texts[which] = (struct bytes){first.bytes, set->bytes};
            expect_at(set, &operations[i], texts, right->outcome.length, &right->outcome);
            first.bytes[set->bytes] = ' ';
            texts[which].length++;
            expect_at(set, &operations[i], texts, right->outcome.length, &too_long);
        }
    }
}

static void a_text_has_at_most_the_bytes_of_the_set(void)
{
    for_each_set(expect_texts_up_to_the_bytes);
}

/* Lengths about those from which on a call holds longer work slices (docs/WORK-SLICES.md). */
static const size_t lengths[] = {255, 256, 257, 511, 512, 513, 1023, 1024, 1025, 2047, 2048, 2049, 4095, 4096, 4097, 16384, 16385};

enum { LENGTHS = sizeof lengths / sizeof *lengths };

/* Whatever slices a call would hold for a text, it is refused by the bytes of the set. */
static void expect_long_texts_refused(void)
{
    for (size_t i = 0; i < LENGTHS; i++) {
        first.length = 0;
        put_times(&first, " ", lengths[i]);
        if (lengths[i] <= set->bytes)
            continue;
        expect_refused_here(DOCUMENT, drafted(&first), RUNVESTOL_TEXT_TOO_LONG, 0);
        expect_refused_here(SHAPE, drafted(&first), RUNVESTOL_TEXT_TOO_LONG, 0);
        expect_refused_here(READER, drafted(&first), RUNVESTOL_TEXT_TOO_LONG, 0);
    }
}

static void a_text_over_the_bytes_of_the_set_is_refused_at_every_length(void)
{
    for_each_set(expect_long_texts_refused);
}

/* As many values as so many bytes can begin: lists as deep as the set lets them be, and numbers of one digit, left open. */
static void expect_dense_documents_refused(void)
{
    size_t lists = set->nesting - 1, place = lists + 2 * (set->values - lists);
    for (size_t i = 0; i < LENGTHS && lengths[i] <= set->bytes; i++) {
        first.length = 0;
        put_times(&first, "[", lists);
        put_times(&first, "1,", (lengths[i] - lists + 1) / 2);
        first.length = lengths[i];
        if (lengths[i] <= place)
            expect_refused_here(DOCUMENT, drafted(&first), RUNVESTOL_JSON_SYNTAX, lengths[i]);
        else
            expect_refused_here(DOCUMENT, drafted(&first), RUNVESTOL_VALUE_LIMIT, place);
    }
}

static void dense_documents_are_refused_at_their_ends_or_at_the_values_of_the_set(void)
{
    for_each_set(expect_dense_documents_refused);
}

static void expect_documents_up_to_the_values(void)
{
    struct bytes row = put_ones(&first, set->values - 1);
    expect_written("plain", row, row, row, 0);
    expect_refused_here(DOCUMENT, put_ones(&first, set->values), RUNVESTOL_VALUE_LIMIT, 2 * set->values - 1);
    row = put_nested(&first, set->nesting);
    expect_written("plain", row, row, row, 0);
    expect_refused_here(DOCUMENT, put_nested(&first, set->nesting + 1), RUNVESTOL_VALUE_LIMIT, set->nesting);
}

static void a_document_has_at_most_the_values_and_the_nesting_of_the_set(void)
{
    for_each_set(expect_documents_up_to_the_values);
}

static void expect_shapes_up_to_the_forms(void)
{
    const struct outcome yes = {.yes = 1};
    put_members(&first, 0, set->values - 1, 1, "(shape)");
    expect_here("below", drafted(&first), drafted(&first), &yes);
    size_t place = put_members(&first, 0, set->values, 1, "(shape)");
    expect_refused_here(SHAPE, drafted(&first), RUNVESTOL_FORM_LIMIT, place);
    put_lists(&first, set->nesting);
    expect_here("below", drafted(&first), drafted(&first), &yes);
    put_lists(&first, set->nesting + 1);
    expect_refused_here(SHAPE, drafted(&first), RUNVESTOL_FORM_LIMIT, set->nesting * strlen("(shape list "));
}

static void a_shape_has_at_most_the_forms_and_the_nesting_of_the_set(void)
{
    for_each_set(expect_shapes_up_to_the_forms);
}

static void expect_readers_up_to_the_forms(void)
{
    static const char level[] = "(if (yes) ";
    size_t place = put_pack(&first, set->values, "(yes)");
    expect_refused_here(READER, drafted(&first), RUNVESTOL_FORM_LIMIT, place);
    put_pack(&first, set->values - 1, "(yes)");
    put_written_members(set->values - 1, "(shape bool)");
    expect_written("check", drafted(&first), bytes_of("(shape)"), drafted(&result), 0);
    for (size_t levels = set->nesting - 1; levels <= set->nesting && 3 * levels < set->values; levels++) {
        first.length = 0;
        put_times(&first, level, levels);
        put(&first, "(no)");
        put_times(&first, " (no))", levels);
        if (levels < set->nesting)
            expect_written("check", drafted(&first), bytes_of("(shape)"), bytes_of("(shape bool)\n"), 0);
        else
            expect_refused_here(READER, drafted(&first), RUNVESTOL_FORM_LIMIT, (levels - 1) * strlen(level) + strlen("(if "));
    }
}

static void a_reader_has_at_most_the_forms_and_the_nesting_of_the_set(void)
{
    for_each_set(expect_readers_up_to_the_forms);
}

/* Expects the result to be written, or to be too large whatever the output. */
static void expect_shape(const char *operation, bool fits, struct bytes text_1, struct bytes text_2)
{
    const struct bytes texts[] = {text_1, text_2};
    const struct outcome too_large = {.number = RUNVESTOL_SHAPE_LIMIT};
    if (fits) {
        expect_written(operation, text_1, text_2, drafted(&result), 0);
        return;
    }
    expect_at(set, operation_named(operation), texts, 0, &too_large);
    expect_at(set, operation_named(operation), texts, BYTES_MOST + 100, &too_large);
}

static void expect_written_up_to_the_set(void)
{
    const struct outcome too_large = {.number = RUNVESTOL_SHAPE_LIMIT};
    for (size_t members = set->values - 1; members <= set->values; members++) {
        put_members(&first, 0, members, 2, "(shape)");
        put_members(&second, 1, members, 2, "(shape)");
        put_written_members(members, "(shape null)");
        expect_shape("join", members < set->values, drafted(&first), drafted(&second));
    }
    put_written_lists(set->nesting, "(shape)");
    expect_written("infer", bytes_of("(shape)"), put_nested(&first, set->nesting - 1), drafted(&result), 0);
    expect_here("infer", bytes_of("(shape)"), put_nested(&first, set->nesting), &too_large);
    size_t front = put_written_name(0);
    for (size_t length = set->bytes; length <= set->bytes + 1; length++) {
        put_long_name(&first, "(shape rec(member\"", length - front, "\"(shape int)))");
        put_written_name(length - front);
        expect_shape("join", length == set->bytes, drafted(&first), bytes_of("(shape)"));
    }
}

static void a_shape_is_written_with_at_most_the_forms_nesting_and_bytes_of_the_set(void)
{
    for_each_set(expect_written_up_to_the_set);
}

/* A form more by a sample's new member, and a form and a level more by a pack around what is kept. */
static void expect_grown_up_to_the_set(void)
{
    static const char kept[] = "(keep (it 0))", packed[] = "(pack \"a\" (keep (it 0)))";
    for (size_t members = set->values - 1; members <= set->values; members++) {
        put_members(&first, 0, members - 1, 1, "(shape)");
        second.length = 0;
        put(&second, "{\"");
        put_number(&second, members - 1, 3);
        put(&second, "\":null}");
        put_written_members(members, "(shape null)");
        expect_shape("infer", members < set->values, drafted(&first), drafted(&second));
    }
    put_members(&first, 0, set->values - 1, 1, "(shape)");
    put_written_members(set->values - 1, "(shape)");
    expect_shape("check", true, bytes_of(kept), drafted(&first));
    expect_shape("check", false, bytes_of(packed), drafted(&first));
    put_lists(&first, set->nesting);
    put_written_lists(set->nesting, "(shape)");
    expect_shape("check", true, bytes_of(kept), drafted(&first));
    expect_shape("check", false, bytes_of(packed), drafted(&first));
}

static void infer_and_check_write_at_most_the_forms_and_the_nesting_of_the_set(void)
{
    for_each_set(expect_grown_up_to_the_set);
}

static void expect_results_up_to_the_values(void)
{
    const struct outcome too_large = {.number = RUNVESTOL_RESULT_LIMIT};
    static const char reader[] = "(pack \"a\" (keep (it 0)))";
    put_ones(&first, set->values - 2);
    for (int nested = 0; nested < 2; nested++) {
        result.length = 0;
        put(&result, "{\"a\":");
        first.bytes[first.length] = '\0';
        put(&result, (const char *)first.bytes);
        put(&result, "}");
        expect_written("run", bytes_of(reader), drafted(&first), drafted(&result), 3);
        put_nested(&first, set->nesting - 1);
    }
    expect_here("run", bytes_of(reader), put_ones(&first, set->values - 1), &too_large);
    expect_here("run", bytes_of(reader), put_nested(&first, set->nesting), &too_large);
}

static void a_result_has_at_most_the_values_and_the_nesting_of_the_set(void)
{
    for_each_set(expect_results_up_to_the_values);
}

/* n elements in each other: n * (n + 2) + 2 steps. The last form is the one too many where the set has a step less. */
static void a_run_takes_at_most_the_steps_of_the_set(void)
{
    static const char reader[] = "(each (it 0) (each (it 1) (no)))", inner[] = "(each (it 0) (each (it 1) ";
    static const size_t counts[] = {15, 16, 21, 100, 254};
    const struct outcome too_large = {.number = RUNVESTOL_RESULT_LIMIT};
    const struct outcome step = {.number = RUNVESTOL_STEP_LIMIT, .text = 1, .place = sizeof inner - 1};
    for (size_t i = 0; i < sizeof counts / sizeof *counts; i++) {
        uint64_t count = counts[i], steps = count * (count + 2) + 2;
        const struct limits enough = {1024, count + 1, 4, steps}, one_less = {1024, count + 1, 4, steps - 1};
        const struct bytes row = put_ones(&second, count);
        set = &one_less;
        expect_here("run", bytes_of(reader), row, &step);
        set = &enough;
        expect_here("run", bytes_of(reader), row, &too_large);
    }
}

static void a_run_of_all_the_steps_of_the_set_gives_its_result(void)
{
    static const char reader[] = "(each (it 0) (each (it 1) (no)))", inner[] = "(each (it 0) (each (it 1) ";
    const struct outcome step = {.number = RUNVESTOL_STEP_LIMIT, .text = 1, .place = sizeof inner - 1};
    const struct limits enough = {1024, 241, 4, 257}, one_less = {1024, 241, 4, 256};
    const struct bytes row = put_ones(&second, 15);
    result.length = 0;
    for (int i = 0; i < 15; i++) {
        put(&result, i == 0 ? "[[false" : ",[false");
        put_times(&result, ",false", 14);
        put(&result, "]");
    }
    put(&result, "]");
    set = &enough;
    expect_written("run", bytes_of(reader), row, drafted(&result), 257);
    set = &one_less;
    expect_here("run", bytes_of(reader), row, &step);
}

/* ---- one set beside another */

static bool is_no_larger(const struct limits *one, const struct limits *other)
{
    return one->bytes <= other->bytes && one->values <= other->values && one->nesting <= other->nesting && one->steps <= other->steps;
}

/* What the set just lets through: a row of ones, lists in each other, a shape of one name. */
static void expect_the_same_at(const struct limits *larger)
{
    const struct limits *smaller = set;
    set = larger;
    put_ones(&first, smaller->values - 1);
    expect_written("plain", drafted(&first), drafted(&first), drafted(&first), 0);
    expect_written("run", bytes_of("(keep (it 0))"), drafted(&first), drafted(&first), 2);
    put_written_lists(smaller->nesting, "(shape)");
    expect_written("infer", bytes_of("(shape)"), put_nested(&first, smaller->nesting - 1), drafted(&result), 0);
    put_written_name(smaller->bytes - put_written_name(0));
    expect_written("join", drafted(&result), bytes_of("(shape)"), drafted(&result), 0);
    set = smaller;
}

static void expect_the_same_at_larger_sets(void)
{
    for (size_t i = 0; i < sizeof sets / sizeof *sets; i++)
        if (is_no_larger(set, &sets[i]))
            expect_the_same_at(&sets[i]);
}

static void what_a_set_lets_through_comes_to_the_same_at_every_larger_one(void)
{
    for_each_set(expect_the_same_at_larger_sets);
}

/* So calls that hand on a text have one set. */
static void a_shape_reached_at_the_largest_set_may_be_too_long_for_the_smallest(void)
{
    static const char reader[] = "(keep (it 0))";
    const struct outcome too_long = {.number = RUNVESTOL_TEXT_TOO_LONG, .text = 2};
    put_long_name(&first, "{\"", 1000, "\":1}");
    put_written_name(1000);
    set = &largest;
    expect_written("infer", bytes_of("(shape)"), drafted(&first), drafted(&result), 0);
    expect_written("check", bytes_of(reader), drafted(&result), drafted(&result), 0);
    set = &smallest;
    expect_shape("infer", false, bytes_of("(shape)"), drafted(&first));
    expect_here("check", bytes_of(reader), drafted(&result), &too_long);
}

void sets_suite(void)
{
    RUN(both_ends_of_each_range_are_in_it);
    RUN(a_number_past_an_end_is_refused_whatever_its_use);
    RUN(numbers_that_are_all_wrong_are_refused_once);
    RUN(a_wrong_set_goes_before_everything_in_the_texts);
    RUN(a_wrong_set_is_refused_with_null_for_all_buffers);
    RUN(a_text_has_at_most_the_bytes_of_the_set);
    RUN(a_text_over_the_bytes_of_the_set_is_refused_at_every_length);
    RUN(dense_documents_are_refused_at_their_ends_or_at_the_values_of_the_set);
    RUN(a_document_has_at_most_the_values_and_the_nesting_of_the_set);
    RUN(a_shape_has_at_most_the_forms_and_the_nesting_of_the_set);
    RUN(a_reader_has_at_most_the_forms_and_the_nesting_of_the_set);
    RUN(a_shape_is_written_with_at_most_the_forms_nesting_and_bytes_of_the_set);
    RUN(infer_and_check_write_at_most_the_forms_and_the_nesting_of_the_set);
    RUN(a_result_has_at_most_the_values_and_the_nesting_of_the_set);
    RUN(a_run_takes_at_most_the_steps_of_the_set);
    RUN(a_run_of_all_the_steps_of_the_set_gives_its_result);
    RUN(what_a_set_lets_through_comes_to_the_same_at_every_larger_one);
    RUN(a_shape_reached_at_the_largest_set_may_be_too_long_for_the_smallest);
}
