#include "documents.h"

#include <stdio.h>
#include <stdlib.h>
#include <string.h>

/* room for a colon, the digits of a line's number and the zero byte */
enum { LINE_WORDS = 24 };

void documents_begin(struct documents *documents, const struct source *source)
{
    documents->source = source;
    documents->next = 0;
    documents->whole = (struct text){NULL, NULL, 0};
    documents->lines.file = -1;
    documents->place = NULL;
}

const char *documents_file(const struct documents *documents)
{
    return documents->source->names[documents->next - 1];
}

void documents_end(struct documents *documents)
{
    text_free(&documents->whole);
    lines_close(&documents->lines);
    free(documents->place);
}

static bool open_lines(struct documents *documents)
{
    const char *name = documents_file(documents);
    documents->name_length = strlen(name);
    char *place = realloc(documents->place, documents->name_length + LINE_WORDS);
    if (place == NULL)
        return false;
    memcpy(place, name, documents->name_length);
    documents->place = place;
    return lines_open(&documents->lines, name);
}

static enum found next_line(struct documents *documents, struct document *document)
{
    enum found found = lines_next(&documents->lines, &document->text);
    if (found != FOUND)
        lines_close(&documents->lines);
    else
        snprintf(documents->place + documents->name_length, LINE_WORDS, ":%zu", documents->lines.number);
    document->text.name = documents->place;
    document->is_line = true;
    return found;
}

static enum found whole_file(struct documents *documents, struct document *document)
{
    if (!text_reload(&documents->whole, documents_file(documents)))
        return UNREADABLE;
    *document = (struct document){documents->whole, false};
    return FOUND;
}

enum found documents_next(struct documents *documents, struct document *document)
{
    enum found found = documents->lines.file < 0 ? NONE_LEFT : next_line(documents, document);
    while (found == NONE_LEFT && documents->next < documents->source->count) {
        documents->next++;
        if (!documents->source->by_lines)
            found = whole_file(documents, document);
        else
            found = open_lines(documents) ? next_line(documents, document) : UNREADABLE;
    }
    return found;
}

enum status documents_each(const struct source *source, take_document *take, void *job)
{
    struct documents documents;
    struct document document;
    enum status worst = DONE;
    enum found found = FOUND;
    bool go_on = true;
    documents_begin(&documents, source);
    while (go_on && !ferror(stdout) && (found = documents_next(&documents, &document)) != NONE_LEFT) {
        enum status status = found == UNREADABLE ? fail(documents_file(&documents)) : take(job, &document, &go_on);
        worst = status > worst ? status : worst;
    }
    documents_end(&documents);
    return worst;
}

void documents_refused(const struct text *first, const struct document *document, const struct outcome *o, reason_of *reason)
{
    const struct text texts[] = {*first, document->text};
    if (document->is_line)
        refusal_show_of_line(stderr, texts, 2, o, reason);
    else
        refusal_show(stderr, texts, 2, o, reason);
}
