#include "forms.h"

#include <string.h>

/* What is open at a byte of a reader, and which of that is the form looked for. */
struct walk {
    const struct text *reader;
    size_t at, place;
    struct form *forms;
    int depth, found; /* found is 0 before the place */
};

bool span_is(const struct text *text, struct span span, const char *word)
{
    size_t length = span.to - span.from;
    return length == strlen(word) && memcmp(text->bytes + span.from, word, length) == 0;
}

static size_t end_of_string(const struct text *reader, size_t from)
{
    size_t at = from + 1;
    while (at < reader->length && reader->bytes[at] != '"')
        at += reader->bytes[at] == '\\' ? 2 : 1;
    return at + 1;
}

static size_t end_of_word(const struct text *reader, size_t from)
{
    size_t at = from;
    while (at < reader->length && memchr("()\" \t\r\n", reader->bytes[at], 7) == NULL)
        at++;
    return at;
}

static void open_form(struct walk *w)
{
    w->forms[w->depth++] = (struct form){.at = w->at};
    if (w->at++ == w->place)
        w->found = w->depth;
}

/* Closes the innermost form. Whether the walk is over: the form looked for has ended, or its first part. */
static bool close_form(struct walk *w)
{
    struct span ended = {w->forms[--w->depth].at, ++w->at};
    if (w->depth == 0 || w->depth < w->found)
        return true;
    struct form *around = &w->forms[w->depth - 1];
    if (around->parts++ == 0)
        around->first = ended;
    return w->depth == w->found;
}

static void pass_word(struct walk *w)
{
    struct form *form = &w->forms[w->depth - 1];
    struct span word = {w->at, end_of_word(w->reader, w->at)};
    int which = form->words[0].to == 0 ? 0 : 1;
    if (form->words[which].to == 0)
        form->words[which] = word;
    w->at = word.to;
}

/* Goes on to the end, or until the walk is over; false where forms are nested too deep. */
static bool go_on(struct walk *w)
{
    while (w->at < w->reader->length) {
        uint8_t byte = w->reader->bytes[w->at];
        if (byte == '(' && w->depth == MOST_LEVELS)
            return false;
        if (byte == '(')
            open_form(w);
        else if (w->depth == 0 || memchr(" \t\r\n", byte, 4) != NULL)
            w->at++;
        else if (byte == '"')
            w->at = end_of_string(w->reader, w->at);
        else if (byte != ')')
            pass_word(w);
        else if (close_form(w))
            break;
    }
    return true;
}

int forms_around(const struct text *reader, size_t place, struct form *forms)
{
    struct walk w = {.reader = reader, .place = place, .forms = forms};
    return go_on(&w) ? w.found : 0;
}

int forms_open(const struct text *reader, size_t place, struct form *forms)
{
    const struct text before = {reader->name, reader->bytes, place};
    struct walk w = {.reader = &before, .place = place, .forms = forms};
    return go_on(&w) ? w.depth : 0;
}
