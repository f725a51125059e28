#include "call.h"

#include <stdlib.h>

#include "runvestol.h"

/* a text as the two parameters that it is, and a set as its four */
#define LEND(text) (text).bytes, (text).length
#define SET(limits) (limits)->bytes, (limits)->values, (limits)->nesting, (limits)->steps

uint64_t call_plain(const struct limits *limits, const struct text *texts, struct output output, uint8_t *answer)
{
    return runvestol_plain(SET(limits), LEND(texts[0]), LEND(output), answer, RUNVESTOL_ANSWER_BYTES);
}

uint64_t call_infer(const struct limits *limits, const struct text *texts, struct output output, uint8_t *answer)
{
    return runvestol_infer(SET(limits), LEND(texts[0]), LEND(texts[1]), LEND(output), answer, RUNVESTOL_ANSWER_BYTES);
}

uint64_t call_join(const struct limits *limits, const struct text *texts, struct output output, uint8_t *answer)
{
    return runvestol_join(SET(limits), LEND(texts[0]), LEND(texts[1]), LEND(output), answer, RUNVESTOL_ANSWER_BYTES);
}

uint64_t call_below(const struct limits *limits, const struct text *texts, struct output output, uint8_t *answer)
{
    (void)output;
    return runvestol_below(SET(limits), LEND(texts[0]), LEND(texts[1]), answer, RUNVESTOL_ANSWER_BYTES);
}

uint64_t call_admits(const struct limits *limits, const struct text *texts, struct output output, uint8_t *answer)
{
    (void)output;
    return runvestol_admits(SET(limits), LEND(texts[0]), LEND(texts[1]), answer, RUNVESTOL_ANSWER_BYTES);
}

uint64_t call_check(const struct limits *limits, const struct text *texts, struct output output, uint8_t *answer)
{
    return runvestol_check(SET(limits), LEND(texts[0]), LEND(texts[1]), LEND(output), answer, RUNVESTOL_ANSWER_BYTES);
}

uint64_t call_run(const struct limits *limits, const struct text *texts, struct output output, uint8_t *answer)
{
    return runvestol_run(SET(limits), LEND(texts[0]), LEND(texts[1]), LEND(output), answer, RUNVESTOL_ANSWER_BYTES);
}

static uint64_t word(const uint8_t *bytes)
{
    uint64_t value = 0;
    for (int i = 7; i >= 0; i--)
        value = value << 8 | bytes[i];
    return value;
}

struct outcome make_call(library_call *call, const struct limits *limits, const struct text *texts, struct output output)
{
    uint8_t answer[RUNVESTOL_ANSWER_BYTES] = {0};
    uint64_t number = call(limits, texts, output, answer);
    return (struct outcome){*limits, number, word(answer + RUNVESTOL_TEXT_AT), word(answer + RUNVESTOL_PLACE_AT),
                            word(answer + RUNVESTOL_LENGTH_AT), word(answer + RUNVESTOL_STEPS_AT),
                            word(answer + RUNVESTOL_YES_AT) != 0};
}

static bool make_room(struct output *output, size_t length)
{
    uint8_t *bytes = realloc(output->bytes, length);
    if (bytes == NULL)
        return false;
    *output = (struct output){bytes, length};
    return true;
}

bool call_with_room(library_call *call, const struct limits *limits, const struct text *texts, struct output *output,
                    struct outcome *o)
{
    if (output->length < RUNVESTOL_MOST_BYTES && !make_room(output, RUNVESTOL_MOST_BYTES))
        return false;
    *o = make_call(call, limits, texts, *output);
    if (o->number != RUNVESTOL_OUTPUT_TOO_SHORT)
        return true;
    if (!make_room(output, o->length))
        return false;
    *o = make_call(call, limits, texts, *output);
    return true;
}
