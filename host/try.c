#include "try.h"

#include <stdio.h>
#include <stdlib.h>
#include <string.h>

#include "call.h"
#include "characters.h"
#include "reason.h"
#include "refusal.h"
#include "runvestol.h"
#include "samples.h"
#include "text.h"

/* the most lines of the two shapes, results, and characters of a line or a result that are shown */
enum { SHAPE_LINES = 30, RESULT_SHAPE_LINES = 12, RESULTS = 10, CHARACTERS = 120 };

struct trial {
    const struct limits *limits;
    struct text reader;
    struct document *samples; /* with bytes and names of their own */
    size_t count, room;
    struct inference inference;
    struct output output;
};

/* ---- showing what is there, cut where it is long */

/* Shows the line that begins at a byte, up to so many characters. Where the next one begins. */
static size_t show_line(const struct text *text, size_t at)
{
    for (int count = 0; at < text->length && text->bytes[at] != '\n'; count++) {
        size_t length = character(text, at);
        if (count < CHARACTERS)
            show_character(stdout, text->bytes + at, length);
        else if (count == CHARACTERS)
            fputs("...", stdout);
        at += length;
    }
    putchar('\n');
    return at + 1;
}

/* Says that there is more, and which command writes all of it. */
static void show_more(size_t count, const char *what, const char *command)
{
    char room[NUMBER_WORDS];
    printf("... and %s %s%s more, which %s writes\n", number_in_words(room, count), what, count == 1 ? "" : "s", command);
}

/* A shape, which has a line feed at the end of each line. */
static void show_shape(const struct text *shape, int most, const char *command)
{
    size_t at = 0, more = 0;
    for (int line = 0; line < most && at < shape->length; line++)
        at = show_line(shape, at);
    for (; at < shape->length; at++)
        more += shape->bytes[at] == '\n';
    if (more > 0)
        show_more(more, "line", command);
}

/* ---- the three parts; a refusal ends the trial, and stands behind what was shown, also where both go to one file */

static enum status refuse(const struct text *first, const struct document *sample, const struct outcome *o, reason_of *reason)
{
    fflush(stdout);
    documents_refused(first, sample, o, reason);
    return REFUSED;
}

static enum status try_infer(struct trial *trial)
{
    struct inference *inference = &trial->inference;
    struct outcome o;
    for (size_t i = 0; i < trial->count; i++)
        if (!inference_join(inference, &trial->samples[i].text, &o))
            return refuse(&inference->shape, &trial->samples[i], &o, NULL);
    return DONE;
}

/* The shape is shown to whoever has a reader, since that is judged by it. It is in no file: what is refused is the reader's. */
static enum status try_check(struct trial *trial)
{
    const struct text texts[] = {trial->reader, trial->inference.shape};
    char count[NUMBER_WORDS];
    struct outcome o;
    if (!call_with_room(call_check, trial->limits, texts, &trial->output, &o))
        return fail("the output");
    if (o.number == RUNVESTOL_OK || o.number > RUNVESTOL_FORM_LIMIT) {
        printf("Shape of %s sample%s:\n", number_in_words(count, trial->count), trial->count == 1 ? "" : "s");
        show_shape(&trial->inference.shape, SHAPE_LINES, "infer");
    }
    if (o.number != RUNVESTOL_OK) {
        fflush(stdout);
        refusal_show(stderr, texts, 1, &o, reason_of_check);
        return REFUSED;
    }
    puts("Result shape:");
    show_shape(&(struct text){NULL, trial->output.bytes, o.length}, RESULT_SHAPE_LINES, "check");
    return DONE;
}

static enum status try_run(struct trial *trial, const struct document *sample, bool is_shown)
{
    const struct text texts[] = {trial->reader, sample->text};
    struct outcome o;
    if (!call_with_room(call_run, trial->limits, texts, &trial->output, &o))
        return fail("the output");
    if (o.number != RUNVESTOL_OK)
        return refuse(&trial->reader, sample, &o, reason_of_run);
    if (is_shown) {
        printf("%s: ", sample->text.name);
        show_line(&(struct text){NULL, trial->output.bytes, o.length}, 0);
    }
    return DONE;
}

static enum status try_runs(struct trial *trial)
{
    puts("Results:");
    for (size_t i = 0; i < trial->count; i++) {
        enum status status = try_run(trial, &trial->samples[i], i < RESULTS);
        if (status != DONE)
            return status;
    }
    if (trial->count > RESULTS)
        show_more(trial->count - RESULTS, "result", "run");
    return DONE;
}

static enum status try_all(struct trial *trial)
{
    if (!inference_begin(&trial->inference, trial->limits, NULL))
        return fail("the shape");
    enum status status = try_infer(trial);
    status = status == DONE ? try_check(trial) : status;
    status = status == DONE ? try_runs(trial) : status;
    inference_end(&trial->inference);
    free(trial->output.bytes);
    return close_output(status);
}

/* ---- the samples, all in memory: standard input is read but once, and what is run is what the shape was reached by */

static bool make_room(struct trial *trial)
{
    if (trial->count < trial->room)
        return true;
    size_t room = trial->room == 0 ? 16 : 2 * trial->room;
    struct document *samples = realloc(trial->samples, room * sizeof *samples);
    if (samples == NULL)
        return false;
    trial->samples = samples;
    trial->room = room;
    return true;
}

/* A document that stands only until the next one comes, kept behind its own name. */
static bool keep_sample(struct trial *trial, const struct document *sample)
{
    size_t name = strlen(sample->text.name) + 1;
    uint8_t *memory = make_room(trial) ? malloc(name + sample->text.length) : NULL;
    if (memory == NULL)
        return false;
    memcpy(memory, sample->text.name, name);
    if (sample->text.length > 0)
        memcpy(memory + name, sample->text.bytes, sample->text.length);
    trial->samples[trial->count++] = (struct document){{(const char *)memory, memory + name, sample->text.length}, sample->is_line};
    return true;
}

static enum status take_sample(void *job, const struct document *sample, bool *go_on)
{
    *go_on = keep_sample(job, sample);
    return *go_on ? DONE : fail("the samples");
}

enum status try_reader(const struct limits *limits, const char *reader, const struct source *samples)
{
    struct trial trial = {.limits = limits};
    if (!text_load(&trial.reader, reader))
        return fail(reader);
    enum status status = documents_each(samples, take_sample, &trial);
    status = status == DONE ? try_all(&trial) : status;
    while (trial.count > 0)
        free((void *)trial.samples[--trial.count].text.name);
    free(trial.samples);
    text_free(&trial.reader);
    return status;
}
