/* Buffers of every awkward length, for every call: answers of 0 to 41 bytes, outputs too short, empty slices, null
   pointers. */
#include <string.h>

#include "calls.h"
#include "check.h"
#include "right.h"
#include "runvestol.h"
#include "suites.h"

static const struct outcome too_short_an_answer = {.number = RUNVESTOL_ANSWER_TOO_SHORT};

/* Texts, and what comes of them with an output of a length. */
struct call {
    const struct operation *operation;
    struct bytes texts[2];
    size_t output;
    struct outcome outcome;
};

static struct call right_call(const struct operation *operation)
{
    const struct right_call *right = right_call_of(operation);
    struct call call = {operation, {right->texts[0], right->texts[1]}, right->outcome.length, right->outcome};
    return call;
}

static struct call broken_call(const struct operation *operation, int text)
{
    struct call call = right_call(operation);
    call.texts[text] = broken_text(operation, text);
    call.outcome = refused_as_broken(operation, text);
    return call;
}

static void for_each_operation(void (*run)(const struct operation *))
{
    for (size_t i = 0; i < operation_count; i++)
        run(&operations[i]);
}

/* ---- answer buffers */

/* Lends a call's texts, output and an answer buffer of a length, on a side. */
static struct loan lend_call(const struct call *call, size_t answer, enum side side)
{
    struct loan loan = {.limits = largest, .output = lend(NULL, call->output, side), .answer = lend(NULL, answer, side)};
    for (int i = 0; i < text_count(call->operation); i++)
        loan.texts[i] = lend(call->texts[i].at, call->texts[i].length, side);
    return loan;
}

/* Holds a call to its outcome with every length of answer buffer from 0 to 41. */
static void expect_with_any_answer(const struct call *call)
{
    for (size_t length = 0; length <= RUNVESTOL_ANSWER_BYTES + 1; length++) {
        for (enum side side = AMID_GUARDS; side < SIDES; side++) {
            struct loan loan = lend_call(call, length, side);
            bool is_short = length < RUNVESTOL_ANSWER_BYTES;
            expect_outcome(call->operation, &loan, is_short ? &too_short_an_answer : &call->outcome);
            take_all_back(&loan);
        }
    }
}

static void right_with_any_answer(const struct operation *operation)
{
    const struct call call = right_call(operation);
    expect_with_any_answer(&call);
}

static void an_answer_under_forty_bytes_is_refused_and_nothing_is_written(void)
{
    for_each_operation(right_with_any_answer);
}

static void broken_with_any_answer(const struct operation *operation)
{
    for (int text = 0; text < text_count(operation); text++) {
        const struct call call = broken_call(operation, text);
        expect_with_any_answer(&call);
    }
}

static void a_short_answer_is_refused_before_a_broken_text(void)
{
    for_each_operation(broken_with_any_answer);
}

static void too_short_with_any_answer(const struct operation *operation)
{
    struct call call = right_call(operation);
    if (!operation->writes)
        return;
    call.output--;
    call.outcome = (struct outcome){.number = RUNVESTOL_OUTPUT_TOO_SHORT, .length = call.outcome.length};
    expect_with_any_answer(&call);
}

static void a_short_answer_is_refused_before_a_short_output(void)
{
    for_each_operation(too_short_with_any_answer);
}

static void too_long_with_any_answer(const struct operation *operation)
{
    static uint8_t spaces[RUNVESTOL_MOST_BYTES + 1];
    memset(spaces, ' ', sizeof spaces);
    for (int text = 0; text < text_count(operation); text++) {
        struct call call = right_call(operation);
        call.texts[text] = (struct bytes){spaces, sizeof spaces};
        call.outcome = (struct outcome){.number = RUNVESTOL_TEXT_TOO_LONG, .text = (uint64_t)text + 1};
        expect_with_any_answer(&call);
    }
}

static void a_short_answer_is_refused_before_a_long_text(void)
{
    for_each_operation(too_long_with_any_answer);
}

/* ---- outputs */

static void with_any_output(const struct operation *operation)
{
    const struct call call = right_call(operation);
    size_t needed = call.outcome.length;
    const struct outcome refused = {.number = RUNVESTOL_OUTPUT_TOO_SHORT, .length = needed};
    for (size_t output = 0; output <= needed + 1; output++)
        expect_of_texts(operation, call.texts, output, output < needed ? &refused : &call.outcome);
}

static void an_output_of_every_length_up_to_what_is_needed(void)
{
    for_each_operation(with_any_output);
}

static void broken_without_output(const struct operation *operation)
{
    for (int text = 0; text < text_count(operation); text++) {
        const struct call call = broken_call(operation, text);
        expect_of_texts(operation, call.texts, 0, &call.outcome);
    }
}

static void a_broken_text_is_refused_before_a_short_output(void)
{
    for_each_operation(broken_without_output);
}

/* ---- which text is refused */

static void expect_first_text_refused(const struct operation *operation)
{
    struct call call = broken_call(operation, 0);
    if (text_count(operation) < 2)
        return;
    call.texts[1] = broken_text(operation, 1);
    expect_of_texts(operation, call.texts, 9, &call.outcome);
}

static void the_first_text_is_refused_before_the_second(void)
{
    for_each_operation(expect_first_text_refused);
}

/* ---- null pointers */

/* The right call with null for what a flag says: the two texts, output, answer. */
static void expect_with_null(const struct operation *operation, const bool *null, const struct outcome *expected)
{
    const struct call call = right_call(operation);
    struct loan loan = {
        .limits = largest,
        .output = null[2] ? lend_null() : lend(NULL, call.output, AMID_GUARDS),
        .answer = null[3] ? lend_null() : lend(NULL, RUNVESTOL_ANSWER_BYTES, AMID_GUARDS),
    };
    for (int i = 0; i < text_count(operation); i++)
        loan.texts[i] = null[i] ? lend_null() : lend(call.texts[i].at, call.texts[i].length, AT_BACK_WALL);
    expect_outcome(operation, &loan, expected);
    take_all_back(&loan);
}

/* What comes of the right call with null for some of it. */
static struct outcome outcome_with_null(const struct operation *operation, const bool *null)
{
    struct outcome given = right_call_of(operation)->outcome;
    if (null[3])
        return too_short_an_answer;
    for (int i = 0; i < text_count(operation) && given.number == RUNVESTOL_OK; i++)
        if (null[i])
            given = outcome_of_empty(operation, i);
    if (given.number == RUNVESTOL_OK && null[2] && operation->writes)
        return (struct outcome){.number = RUNVESTOL_OUTPUT_TOO_SHORT, .length = given.length};
    return given;
}

static void with_every_null(const struct operation *operation)
{
    for (int bits = 0; bits < 16; bits++) {
        const bool null[] = {bits & 1, bits & 2, bits & 4, bits & 8};
        const struct outcome expected = outcome_with_null(operation, null);
        expect_with_null(operation, null, &expected);
    }
}

static void whatever_is_empty_may_be_a_null_pointer(void)
{
    for_each_operation(with_every_null);
}

static void with_each_text_empty(const struct operation *operation)
{
    for (int text = 0; text < text_count(operation); text++) {
        struct call call = right_call(operation);
        const struct outcome expected = outcome_of_empty(operation, text);
        call.texts[text] = bytes_of("");
        expect_of_texts(operation, call.texts, call.output, &expected);
    }
}

static void an_empty_text_is_refused_at_its_end_unless_it_is_a_reader(void)
{
    for_each_operation(with_each_text_empty);
}

/* ---- alignment */

/* A buffer of exactly these bytes whose first has a distance from a word border; no guards. */
static struct lent shifted(uint8_t *room, size_t shift, struct bytes bytes)
{
    if (bytes.length > 0)
        memcpy(room + shift, bytes.at, bytes.length);
    return (struct lent){.bytes = room + shift, .length = bytes.length};
}

/* The buffers' first bytes at every distance from a word border. */
static void at_every_distance(const struct operation *operation)
{
    static _Alignas(8) uint8_t texts[2][80], output[80], answer[80];
    const struct call call = right_call(operation);
    for (size_t shift = 0; shift < 8; shift++) {
        struct loan loan = {
            .limits = largest,
            .texts = {shifted(texts[0], shift, call.texts[0]), shifted(texts[1], shift, call.texts[1])},
            .output = {.bytes = output + shift, .length = call.output},
            .answer = {.bytes = answer + shift, .length = RUNVESTOL_ANSWER_BYTES},
        };
        EXPECT(operation->call(&loan) == RUNVESTOL_OK);
        EXPECT(answer[shift + RUNVESTOL_LENGTH_AT] == call.outcome.length);
        EXPECT(answer[shift + RUNVESTOL_STEPS_AT] == call.outcome.steps);
        EXPECT(answer[shift + RUNVESTOL_YES_AT] == call.outcome.yes);
        EXPECT(!operation->writes || memcmp(output + shift, call.outcome.written.at, call.outcome.length) == 0);
    }
}

static void buffers_need_no_alignment(void)
{
    for_each_operation(at_every_distance);
}

void buffers_suite(void)
{
    RUN(an_answer_under_forty_bytes_is_refused_and_nothing_is_written);
    RUN(a_short_answer_is_refused_before_a_broken_text);
    RUN(a_short_answer_is_refused_before_a_short_output);
    RUN(a_short_answer_is_refused_before_a_long_text);
    RUN(an_output_of_every_length_up_to_what_is_needed);
    RUN(a_broken_text_is_refused_before_a_short_output);
    RUN(the_first_text_is_refused_before_the_second);
    RUN(whatever_is_empty_may_be_a_null_pointer);
    RUN(an_empty_text_is_refused_at_its_end_unless_it_is_a_reader);
    RUN(buffers_need_no_alignment);
}
