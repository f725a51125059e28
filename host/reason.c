#include "reason.h"

#include <string.h>

#include "forms.h"
#include "runvestol.h"
#include "syntax.h"

/* the most names that are told of those that a shape lists */
enum { MOST_NAMES = 8 };

/* What each form that wants anything wants. */
static const struct want {
    const char *form, *kinds;
} wants[] = {
    {"field", "rec or null"}, {"int", "int"}, {"dec", "int or dec"}, {"bool", "bool"}, {"text", "text"},
    {"count", "list or null"}, {"each", "list or null"}, {"if", "bool"},
};

static bool add_span(struct text *to, const struct text *from, struct span span)
{
    return text_add(to, from->bytes + span.from, span.to - span.from);
}

/* ---- a reader that tells what a form meets: it gives the part that the form looks at, with the same bindings around it */

/*
 * How what stands around the part is put. Each binding leaves it in the result shape, some lines further down: as a list's
 * element, or as the member of a record that nothing is joined with but null.
 */
struct around {
    const char *before, *between, *behind;
    size_t lines;
};

static const struct around not_bound = {NULL, NULL, NULL, 0};
static const struct around bound_by_each = {"(each ", " ", ")", 1};
static const struct around bound_in_first = {"(when ", "(pack\"\"", ")(none))", 2};
static const struct around bound_in_second = {"(when ", "(none)(pack\"\"", "))", 2};

/* How a form binds what stands in the part of it that begins now. */
static const struct around *around_in(const struct text *reader, const struct form *form)
{
    if (span_is(reader, form->words[0], "each"))
        return form->parts == 1 ? &bound_by_each : &not_bound;
    if (!span_is(reader, form->words[0], "when") || form->parts == 0)
        return &not_bound;
    return form->parts == 1 ? &bound_in_first : &bound_in_second;
}

static bool add_before(struct text *to, const struct text *reader, const struct form *form)
{
    const struct around *around = around_in(reader, form);
    if (around == &not_bound)
        return true;
    return text_say(to, around->before) && (around == &bound_by_each || add_span(to, reader, form->words[1]))
        && add_span(to, reader, form->first) && text_say(to, around->between);
}

static bool add_part(struct text *to, const struct text *reader, const struct form *form)
{
    if (span_is(reader, form->words[0], "if"))
        return add_span(to, reader, form->first);
    return text_say(to, "(keep ") && add_span(to, reader, form->first) && text_say(to, ")");
}

/* Makes the reader, and gives the line of its result shape at which the part's own shape begins. */
static bool make_probe(struct text *to, const struct text *reader, const struct form *forms, int count, size_t *line)
{
    bool fine = true;
    *line = 0;
    for (int i = 0; i < count - 1; i++) {
        fine = fine && add_before(to, reader, &forms[i]);
        *line += around_in(reader, &forms[i])->lines;
    }
    fine = fine && add_part(to, reader, &forms[count - 1]);
    for (int i = count - 2; fine && i >= 0; i--) {
        const struct around *around = around_in(reader, &forms[i]);
        fine = around == &not_bound || text_say(to, around->behind);
    }
    return fine;
}

/* ---- the shape that it meets, as it is written */

/* Where a line begins, lines being counted from 0. */
static size_t start_of_line(const struct text *shape, size_t line)
{
    size_t at = 0;
    for (; line > 0 && at < shape->length; at++)
        line -= shape->bytes[at] == '\n';
    return at;
}

/* The kind words of the form on a line. */
static bool add_kinds(struct text *to, const struct text *shape, size_t line_at)
{
    size_t at = line_at + line_spaces(shape, line_at) + strlen("(shape");
    bool fine = text_say(to, ", and meets");
    for (const char *before = " "; fine && at < shape->length && shape->bytes[at] == ' '; before = " or ") {
        size_t from = ++at;
        while (at < shape->length && shape->bytes[at] >= 'a' && shape->bytes[at] <= 'z')
            at++;
        fine = text_say(to, before) && add_span(to, shape, (struct span){from, at});
    }
    return fine;
}

/* The names that the form on a line lists: each has a line of its own, one space further in. */
static bool add_names(struct text *to, const struct text *shape, size_t line_at)
{
    static const char member[] = "(member ";
    size_t indent = line_spaces(shape, line_at), at = line_end(shape, line_at) + 1;
    bool fine = text_say(to, ", and the shape has");
    int count = 0;
    for (; fine && at < shape->length && line_spaces(shape, at) > indent; at = line_end(shape, at) + 1) {
        size_t name = at + indent + sizeof member;
        if (line_spaces(shape, at) != indent + 1 || memcmp(shape->bytes + name - strlen(member), member, strlen(member)) != 0)
            continue;
        if (count++ == MOST_NAMES)
            return text_say(to, " and others there");
        fine = text_say(to, count == 1 ? " " : ", ") && add_span(to, shape, (struct span){name, line_end(shape, at)});
    }
    return fine && text_say(to, count == 0 ? " none there" : " there");
}

/* ---- both */

static bool add_wanted(struct text *words, const struct text *reader, const struct form *form, uint64_t number)
{
    for (size_t i = 0; i < sizeof wants / sizeof *wants; i++)
        if (span_is(reader, form->words[0], wants[i].form))
            return text_say(words, wants[i].form) && text_say(words, " wants ")
                && text_say(words, number == RUNVESTOL_UNLISTED_NAME ? "a name that is listed" : wants[i].kinds);
    return false;
}

/* What the form meets; nothing where the library does not pass the reader that is to tell. */
static bool add_met(struct text *words, const struct text *probe, const struct text *shape, size_t line, const struct outcome *refused)
{
    uint8_t written[RUNVESTOL_MOST_BYTES];
    const struct text texts[] = {*probe, *shape};
    struct outcome o = make_call(call_check, &refused->limits, texts, (struct output){written, sizeof written});
    if (o.number != RUNVESTOL_OK)
        return true;
    const struct text result = {NULL, written, o.length};
    size_t at = start_of_line(&result, line);
    return refused->number == RUNVESTOL_UNWANTED_KIND ? add_kinds(words, &result, at) : add_names(words, &result, at);
}

/* The shape that check writes is none of its files'. */
static bool say_too_large(struct text *words, const struct limits *limits)
{
    char forms[NUMBER_WORDS], levels[NUMBER_WORDS], bytes[NUMBER_WORDS];
    return text_say(words, "the reader's result shape has over ") && text_say(words, number_in_words(forms, limits->values))
        && text_say(words, " forms, ") && text_say(words, number_in_words(levels, limits->nesting))
        && text_say(words, " levels or ") && text_say(words, number_in_words(bytes, limits->bytes)) && text_say(words, " bytes");
}

bool reason_of_check(struct text *words, const struct text *texts, const struct outcome *o)
{
    const struct text *reader = &texts[0], *shape = &texts[1];
    struct form forms[MOST_LEVELS];
    struct text probe = {NULL, NULL, 0};
    size_t line;
    int count = 0;
    if (o->number == RUNVESTOL_FORM_SYNTAX)
        return reason_of_syntax(words, texts, o);
    if (o->number == RUNVESTOL_SHAPE_LIMIT)
        return say_too_large(words, &o->limits);
    if (o->number == RUNVESTOL_UNWANTED_KIND || o->number == RUNVESTOL_UNLISTED_NAME)
        count = forms_around(reader, o->place, forms);
    bool told = count > 0 && add_wanted(words, reader, &forms[count - 1], o->number)
        && make_probe(&probe, reader, forms, count, &line) && add_met(words, &probe, shape, line, o);
    text_free(&probe);
    return told;
}

bool reason_of_run(struct text *words, const struct text *texts, const struct outcome *o)
{
    struct form forms[MOST_LEVELS];
    char step[NUMBER_WORDS];
    int count = 0;
    if (o->number == RUNVESTOL_FORM_SYNTAX)
        return reason_of_syntax(words, texts, o);
    if (o->number == RUNVESTOL_STEP_LIMIT)
        return text_say(words, "the form would be step ") && text_say(words, number_in_words(step, o->limits.steps + 1))
            && text_say(words, " on ") && text_say(words, texts[1].name);
    if (o->number == RUNVESTOL_STUCK)
        count = forms_around(&texts[0], o->place, forms);
    return count > 0 && add_wanted(words, &texts[0], &forms[count - 1], o->number)
        && text_say(words, ", and meets another kind in ") && text_say(words, texts[1].name);
}
