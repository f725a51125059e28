#include "refusal.h"

#include <inttypes.h>

#include "characters.h"
#include "runvestol.h"

/* the most characters shown before the place, and from it on, so that a long line fits a terminal */
enum { BEFORE = 48, BEHIND = 24 };

static const char cut[] = "...";

static bool has_place(uint64_t number)
{
    switch (number) {
    case RUNVESTOL_JSON_SYNTAX:
    case RUNVESTOL_NUMBER_LIMIT:
    case RUNVESTOL_DUPLICATE_NAME:
    case RUNVESTOL_VALUE_LIMIT:
    case RUNVESTOL_FORM_SYNTAX:
    case RUNVESTOL_FORM_LIMIT:
    case RUNVESTOL_UNWANTED_KIND:
    case RUNVESTOL_UNLISTED_NAME:
    case RUNVESTOL_STUCK:
    case RUNVESTOL_STEP_LIMIT:
        return true;
    default:
        return false;
    }
}

/* Says what a refusal by a limit means, with the numbers of the set. Of any other: false. */
static bool say_limit(FILE *to, uint64_t number, const struct limits *limits)
{
    char bytes[NUMBER_WORDS], value[NUMBER_WORDS], values[NUMBER_WORDS], nesting[NUMBER_WORDS], deep[NUMBER_WORDS], step[NUMBER_WORDS];
    number_in_words(bytes, limits->bytes);
    number_in_words(values, limits->values);
    number_in_words(nesting, limits->nesting);
    number_in_words(deep, limits->nesting + 1);
    number_in_words(step, limits->steps + 1);
    place_in_words(value, limits->values + 1);
    if (number == RUNVESTOL_TEXT_TOO_LONG)
        fprintf(to, "the text has over %s bytes", bytes);
    else if (number == RUNVESTOL_VALUE_LIMIT)
        fprintf(to, "the value is the %s or nested %s deep", value, deep);
    else if (number == RUNVESTOL_FORM_LIMIT)
        fprintf(to, "the form is the %s or nested %s deep", value, deep);
    else if (number == RUNVESTOL_SHAPE_LIMIT)
        fprintf(to, "the shape to be written has over %s forms, %s levels or %s bytes", values, nesting, bytes);
    else if (number == RUNVESTOL_STEP_LIMIT)
        fprintf(to, "the form would be step %s", step);
    else if (number == RUNVESTOL_RESULT_LIMIT)
        fprintf(to, "the result has over %s values or %s levels", values, nesting);
    else
        return false;
    return true;
}

/* Says what a refusal means: the header's words, but where the set or the text's end says more. */
static void say_meaning(FILE *to, const struct text *text, const struct outcome *o)
{
    bool at_end = o->place == text->length;
    if (at_end && o->number == RUNVESTOL_JSON_SYNTAX)
        fputs("the text ends where JSON has to go on", to);
    else if (at_end && o->number == RUNVESTOL_FORM_SYNTAX)
        fputs("the text ends where a shape or reader has to go on", to);
    else if (!say_limit(to, o->number, &o->limits))
        fputs(runvestol_message(o->number), to);
}

/* A place in a text, for a person: its line's number and first byte, and the characters of the line before it. */
struct position {
    size_t line, start, characters;
};

static struct position position_of(const struct text *text, size_t place)
{
    struct position p = {1, 0, 0};
    for (size_t at = 0; at < place && at < text->length; at++) {
        if (text->bytes[at] == '\n') {
            p.line++;
            p.start = at + 1;
        }
    }
    for (size_t at = p.start; at < place && at < text->length; at += character(text, at))
        p.characters++;
    return p;
}

static size_t end_of_line(const struct text *text, size_t from)
{
    size_t end = line_end(text, from);
    return end > from && text->bytes[end - 1] == '\r' ? end - 1 : end;
}

/* The line from a byte on, until it ends or a count of characters is shown. */
static void show_line(FILE *to, const struct text *text, size_t from, size_t count)
{
    size_t end = end_of_line(text, from);
    fprintf(to, "%s\n", show_characters(to, text, from, end, count) < end ? cut : "");
}

/* A column for each character up to the place. A tab stays one, so that it is as wide as in the line above. */
static void show_caret(FILE *to, const struct text *text, size_t from, size_t count)
{
    for (size_t at = from; count > 0; count--) {
        putc(text->bytes[at] == '\t' ? '\t' : ' ', to);
        at += character(text, at);
    }
    fputs("^\n", to);
}

static void show_excerpt(FILE *to, const struct text *text, struct position p)
{
    size_t from = p.start, count = p.characters;
    for (; count > BEFORE; count--)
        from += character(text, from);
    bool is_cut = from > p.start;
    fputs(is_cut ? cut : "", to);
    show_line(to, text, from, count + BEHIND);
    fprintf(to, "%*s", is_cut ? (int)sizeof cut - 1 : 0, "");
    show_caret(to, text, from, count);
}

static void say_where(FILE *to, const struct text *text, struct position p, bool is_line)
{
    fprintf(to, "%s:", text->name);
    if (!is_line)
        fprintf(to, "%zu:", p.line);
    fprintf(to, "%zu: ", p.characters + 1);
}

static void show(FILE *to, const struct text *texts, int count, const struct outcome *o, reason_of *reason, bool is_line)
{
    const struct text *text = &texts[o->text == 1 ? 0 : count - 1];
    struct position p = position_of(text, o->place);
    struct text words = {NULL, NULL, 0};
    say_where(to, text, p, is_line && text == &texts[count - 1]);
    fprintf(to, "refused %" PRIu64 " at %" PRIu64 ": ", o->number, o->place);
    if (reason != NULL && reason(&words, texts, o))
        show_characters(to, &words, 0, words.length, words.length);
    else
        say_meaning(to, text, o);
    putc('\n', to);
    if (has_place(o->number))
        show_excerpt(to, text, p);
    text_free(&words);
}

void refusal_show(FILE *to, const struct text *texts, int count, const struct outcome *o, reason_of *reason)
{
    show(to, texts, count, o, reason, false);
}

void refusal_show_of_line(FILE *to, const struct text *texts, int count, const struct outcome *o, reason_of *reason)
{
    show(to, texts, count, o, reason, true);
}
