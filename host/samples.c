#include "samples.h"

#include <stdio.h>

#include "progress.h"

/* What becomes of a sample; behind the last two no further one is taken. */
enum fate { JOINED, LEFT_OUT, SHAPE_REFUSED, STOPPED };

bool inference_begin(struct inference *inference, const struct limits *limits, const char *from)
{
    static const char nothing[] = "(shape)\n";
    inference->limits = limits;
    inference->start = (struct text){"(shape)", NULL, 0};
    bool loaded = from == NULL ? text_say(&inference->start, nothing) : text_load(&inference->start, from);
    inference->shape = inference->start;
    inference->other = 0;
    return loaded;
}

bool inference_join(struct inference *inference, const struct text *sample, struct outcome *o)
{
    const struct text texts[] = {inference->shape, *sample};
    uint8_t *room = inference->rooms[inference->other];
    *o = make_call(call_infer, inference->limits, texts, (struct output){room, RUNVESTOL_MOST_BYTES});
    if (o->number != RUNVESTOL_OK)
        return false;
    inference->shape.bytes = room;
    inference->shape.length = o->length;
    inference->other = !inference->other;
    return true;
}

void inference_end(struct inference *inference)
{
    text_free(&inference->start);
}

static enum fate join_sample(struct inference *inference, const struct document *sample, struct progress *progress)
{
    struct outcome o;
    if (inference_join(inference, &sample->text, &o))
        return JOINED;
    progress_clear(progress);
    documents_refused(&inference->shape, sample, &o, NULL);
    return o.text == 1 ? SHAPE_REFUSED : LEFT_OUT;
}

static enum fate join_all(struct inference *inference, const struct source *source, struct progress *progress)
{
    struct documents documents;
    struct document sample;
    enum fate worst = JOINED;
    enum found found = FOUND;
    documents_begin(&documents, source);
    while (worst < SHAPE_REFUSED && (found = documents_next(&documents, &sample)) == FOUND) {
        enum fate fate = join_sample(inference, &sample, progress);
        worst = fate > worst ? fate : worst;
        progress_count(progress, fate != JOINED);
    }
    progress_clear(progress);
    if (found == UNREADABLE)
        fail(documents_file(&documents));
    documents_end(&documents);
    return found == UNREADABLE ? STOPPED : worst;
}

/* Judges the shape by itself, as no sample came with which it would have been. */
static enum fate judge_start(const struct inference *inference)
{
    const struct text texts[] = {inference->start, inference->start};
    struct outcome o = make_call(call_below, inference->limits, texts, (struct output){NULL, 0});
    if (o.number == RUNVESTOL_OK)
        return JOINED;
    refusal_show(stderr, texts, 2, &o, NULL);
    return SHAPE_REFUSED;
}

enum status infer_samples(const struct limits *limits, const char *from, const struct source *source)
{
    static const enum status statuses[] = {DONE, REFUSED, REFUSED, FAILED};
    struct inference inference;
    struct progress progress;
    if (!inference_begin(&inference, limits, from))
        return fail(from == NULL ? "the shape" : from);
    progress_begin(&progress, source->by_lines ? "record" : "file", source->by_lines ? "records" : "files");
    enum fate worst = join_all(&inference, source, &progress);
    if (progress.count == 0 && worst == JOINED)
        worst = judge_start(&inference);
    enum status written = worst < SHAPE_REFUSED ? write_output(inference.shape.bytes, inference.shape.length) : DONE;
    inference_end(&inference);
    return written == FAILED ? FAILED : statuses[worst];
}
