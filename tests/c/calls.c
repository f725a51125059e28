#include "calls.h"

#include <inttypes.h>
#include <stdio.h>
#include <string.h>

#include "check.h"
#include "runvestol.h"

const struct limits largest = {RUNVESTOL_LARGEST}, smallest = {RUNVESTOL_SMALLEST};

/* a lent buffer as the two parameters that it is, and a set as its four */
#define LEND(lent) (lent).bytes, (lent).length
#define SET(limits) (limits).bytes, (limits).values, (limits).nesting, (limits).steps

static uint64_t call_plain(const struct loan *loan)
{
    return runvestol_plain(SET(loan->limits), LEND(loan->texts[0]), LEND(loan->output), LEND(loan->answer));
}

static uint64_t call_infer(const struct loan *loan)
{
    return runvestol_infer(SET(loan->limits), LEND(loan->texts[0]), LEND(loan->texts[1]), LEND(loan->output), LEND(loan->answer));
}

static uint64_t call_join(const struct loan *loan)
{
    return runvestol_join(SET(loan->limits), LEND(loan->texts[0]), LEND(loan->texts[1]), LEND(loan->output), LEND(loan->answer));
}

static uint64_t call_below(const struct loan *loan)
{
    return runvestol_below(SET(loan->limits), LEND(loan->texts[0]), LEND(loan->texts[1]), LEND(loan->answer));
}

static uint64_t call_admits(const struct loan *loan)
{
    return runvestol_admits(SET(loan->limits), LEND(loan->texts[0]), LEND(loan->texts[1]), LEND(loan->answer));
}

static uint64_t call_check(const struct loan *loan)
{
    return runvestol_check(SET(loan->limits), LEND(loan->texts[0]), LEND(loan->texts[1]), LEND(loan->output), LEND(loan->answer));
}

static uint64_t call_run(const struct loan *loan)
{
    return runvestol_run(SET(loan->limits), LEND(loan->texts[0]), LEND(loan->texts[1]), LEND(loan->output), LEND(loan->answer));
}

const struct operation operations[] = {
    {"plain", {DOCUMENT, NO_TEXT}, true, RUNVESTOL_PLAIN_STACK_BYTES, call_plain},
    {"infer", {SHAPE, DOCUMENT}, true, RUNVESTOL_INFER_STACK_BYTES, call_infer},
    {"join", {SHAPE, SHAPE}, true, RUNVESTOL_JOIN_STACK_BYTES, call_join},
    {"below", {SHAPE, SHAPE}, false, RUNVESTOL_BELOW_STACK_BYTES, call_below},
    {"admits", {SHAPE, DOCUMENT}, false, RUNVESTOL_ADMITS_STACK_BYTES, call_admits},
    {"check", {READER, SHAPE}, true, RUNVESTOL_CHECK_STACK_BYTES, call_check},
    {"run", {READER, DOCUMENT}, true, RUNVESTOL_RUN_STACK_BYTES, call_run},
};

const size_t operation_count = sizeof operations / sizeof *operations;

const struct operation *operation_named(const char *name)
{
    for (size_t i = 0; i < operation_count; i++)
        if (strcmp(name, operations[i].name) == 0)
            return &operations[i];
    return NULL;
}

int text_count(const struct operation *operation)
{
    return operation->texts[1] == NO_TEXT ? 1 : 2;
}

struct bytes bytes_of(const char *text)
{
    return (struct bytes){(const uint8_t *)text, strlen(text)};
}

/* Writes the words by the header's places, the low byte first. */
static void put_answer(uint8_t *answer, const struct outcome *o)
{
    const struct {
        int at;
        uint64_t word;
    } words[] = {
        {RUNVESTOL_TEXT_AT, o->text},   {RUNVESTOL_PLACE_AT, o->place}, {RUNVESTOL_LENGTH_AT, o->length},
        {RUNVESTOL_STEPS_AT, o->steps}, {RUNVESTOL_YES_AT, o->yes},
    };
    for (size_t i = 0; i < sizeof words / sizeof *words; i++)
        for (int b = 0; b < 8; b++)
            answer[words[i].at + b] = (uint8_t)(words[i].word >> 8 * b);
}

static void print_answer(const char *which, uint64_t number, const uint8_t *answer, size_t length)
{
    printf("  %s: number %" PRIu64 ", answer", which, number);
    for (size_t i = 0; i < length && i < RUNVESTOL_ANSWER_BYTES; i++)
        printf("%s%02x", i % 8 == 0 ? " " : "", answer[i]);
    printf("\n");
}

void expect_outcome(const struct operation *operation, struct loan *loan, const struct outcome *expected)
{
    uint8_t answer[RUNVESTOL_ANSWER_BYTES];
    put_answer(answer, expected);
    size_t answered = loan->answer.length < sizeof answer ? 0 : sizeof answer;
    uint64_t number = operation->call(loan);
    bool is_answered = number == expected->number && changed_only(&loan->answer, answer, answered);
    EXPECT(is_answered);
    if (!is_answered) {
        printf("  of %s\n", operation->name);
        print_answer("expected", expected->number, answer, answered);
        print_answer("here    ", number, loan->answer.bytes, loan->answer.length);
    }
    EXPECT(changed_only(&loan->output, expected->written.at, expected->written.length));
    EXPECT(changed_only(&loan->texts[0], NULL, 0));
    EXPECT(changed_only(&loan->texts[1], NULL, 0));
}

void take_all_back(struct loan *loan)
{
    take_back(&loan->texts[0]);
    take_back(&loan->texts[1]);
    take_back(&loan->output);
    take_back(&loan->answer);
}

void expect_with(const struct limits *limits, const struct operation *operation, const struct bytes *texts, size_t output,
                 size_t answer, const struct outcome *expected)
{
    for (enum side side = AMID_GUARDS; side < SIDES; side++) {
        struct loan loan = {
            .limits = *limits,
            .output = lend(NULL, output, side),
            .answer = lend(NULL, answer, side),
        };
        for (int i = 0; i < text_count(operation); i++)
            loan.texts[i] = lend(texts[i].at, texts[i].length, side);
        expect_outcome(operation, &loan, expected);
        take_all_back(&loan);
    }
}

void expect_at(const struct limits *limits, const struct operation *operation, const struct bytes *texts, size_t output,
               const struct outcome *expected)
{
    expect_with(limits, operation, texts, output, RUNVESTOL_ANSWER_BYTES, expected);
}

void expect_of_texts(const struct operation *operation, const struct bytes *texts, size_t output,
                     const struct outcome *expected)
{
    expect_at(&largest, operation, texts, output, expected);
}
