#include "results.h"

#include <inttypes.h>
#include <stdio.h>
#include <stdlib.h>

#include "call.h"
#include "reason.h"
#include "runvestol.h"
#include "text.h"

/* What all documents have in common. */
struct run {
    const struct limits *limits;
    struct text reader;
    struct output output;
    bool several, steps;
};

/* Whether the reader was refused by itself, so that it is on every document. */
static bool is_of_reader(const struct outcome *o)
{
    return o->text == 1 && o->number != RUNVESTOL_STUCK && o->number != RUNVESTOL_STEP_LIMIT;
}

static enum status run_document(void *job, const struct document *document, bool *go_on)
{
    struct run *run = job;
    const struct text texts[] = {run->reader, document->text};
    struct outcome o;
    if (!call_with_room(call_run, run->limits, texts, &run->output, &o))
        return fail("the output");
    if (o.number != RUNVESTOL_OK) {
        documents_refused(&run->reader, document, &o, reason_of_run);
        *go_on = !is_of_reader(&o);
        return REFUSED;
    }
    if (run->steps)
        fprintf(stderr, "%s: %" PRIu64 " steps\n", document->text.name, o.steps);
    put_result(run->output.bytes, o.length, run->several);
    return DONE;
}

enum status run_documents(const struct limits *limits, const char *reader, const struct source *source, bool steps)
{
    struct run run = {.limits = limits, .several = source->several, .steps = steps};
    if (!text_load(&run.reader, reader))
        return fail(reader);
    enum status worst = documents_each(source, run_document, &run);
    text_free(&run.reader);
    free(run.output.bytes);
    return close_output(worst);
}
