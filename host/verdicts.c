#include "verdicts.h"

#include <stdio.h>

#include "call.h"
#include "difference.h"
#include "runvestol.h"
#include "text.h"

/* What all documents have in common. */
struct judging {
    const struct limits *limits;
    struct text shape;
    bool several;
};

/* Has the library write a shape by a call on two texts. Where the call is refused that is shown. */
static bool write_shape(struct text *written, library_call *call, const struct judging *judging, const struct document *second)
{
    const struct text texts[] = {judging->shape, second->text};
    struct outcome o = make_call(call, judging->limits, texts, (struct output){written->bytes, RUNVESTOL_MOST_BYTES});
    written->length = o.length;
    if (o.number != RUNVESTOL_OK)
        documents_refused(&judging->shape, second, &o, NULL);
    return o.number == RUNVESTOL_OK;
}

/* The shape is written anew, since its text may be laid out otherwise: joined with itself it is the same shape. */
static void say_why(const struct judging *judging, const struct document *document)
{
    uint8_t rooms[2][RUNVESTOL_MOST_BYTES];
    struct text before = {NULL, rooms[0], 0}, behind = {NULL, rooms[1], 0};
    const struct document itself = {judging->shape, false};
    if (!write_shape(&behind, call_infer, judging, document) || !write_shape(&before, call_join, judging, &itself))
        return;
    fprintf(stderr, "%s: were it a sample, these lines of the shape would change:\n", document->text.name);
    difference_show(stderr, &before, &behind);
}

/* Writes the answer, and behind it why, in this order also where both go to one place. */
static enum status answer(const struct judging *judging, const struct document *document, bool yes)
{
    if (judging->several)
        printf("%s: ", document->text.name);
    puts(yes ? "yes" : "no");
    if (!yes && fflush(stdout) == 0)
        say_why(judging, document);
    return yes ? DONE : REFUSED;
}

static enum status judge_document(void *job, const struct document *document, bool *go_on)
{
    const struct judging *judging = job;
    const struct text texts[] = {judging->shape, document->text};
    struct outcome o = make_call(call_admits, judging->limits, texts, (struct output){NULL, 0});
    if (o.number == RUNVESTOL_OK)
        return answer(judging, document, o.yes);
    documents_refused(&judging->shape, document, &o, NULL);
    *go_on = o.text != 1;
    return REFUSED;
}

enum status judge_documents(const struct limits *limits, const char *shape, const struct source *source)
{
    struct judging judging = {.limits = limits, .several = source->several};
    if (!text_load(&judging.shape, shape))
        return fail(shape);
    enum status worst = documents_each(source, judge_document, &judging);
    text_free(&judging.shape);
    return close_output(worst);
}
