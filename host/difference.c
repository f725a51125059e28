#include "difference.h"

#include <stdbool.h>
#include <string.h>

#include "characters.h"
#include "limits.h"
#include "runvestol.h"

/* the most places that are shown, lines of one, characters of a line, and characters of a name that leads there */
enum { MOST_PLACES = 8, MOST_SHOWN = 12, MOST_CHARACTERS = 72, MOST_OF_NAME = 40 };

/* as many lines as a shape text may have, one for each form and one for each member, and as many names as may lead to a form */
enum { MOST_LINES = 2 * RUNVESTOL_MOST_VALUES, MOST_STEPS = RUNVESTOL_MOST_NESTING };

/* A line of a shape text: its form's bytes without spaces in front, and without brackets that close. */
struct line {
    size_t from, to, indent;
    bool is_member;
};

struct written {
    const struct text *text;
    struct line lines[MOST_LINES];
    size_t count;
};

/* Two shapes being compared, and the lines of members and elements that lead to where both are. */
struct walk {
    FILE *to;
    struct written before, behind;
    const struct line *steps[MOST_STEPS];
    int depth;
    uint64_t places;
    int left; /* lines that may still be shown at this place */
};

/* The kinds in the order of a shape's words, what a shape is said to have with each, and what a sample. */
static const struct kind {
    const char *word, *in_shape, *in_sample;
} kinds[] = {
    {"null", "null", "null"}, {"bool", "true or false", "true or false"}, {"int", "a whole number", "a whole number"},
    {"dec", "a number", "a number with a fraction"}, {"text", "a text", "a text"}, {"list", "a list", "a list"},
    {"rec", "a record", "a record"},
};

enum { KIND_NULL, KIND_BOOL, KIND_INT, KIND_DEC, KIND_TEXT, KIND_LIST, KIND_REC, KINDS };

static const char shape_word[] = "(shape", member_word[] = "(member ";

/* ---- the lines of a shape text */

static void split(struct written *written, const struct text *text)
{
    written->text = text;
    written->count = 0;
    for (size_t at = 0; at < text->length && written->count < MOST_LINES; at = line_end(text, at) + 1) {
        struct line line = {.from = at + line_spaces(text, at), .to = line_end(text, at), .indent = line_spaces(text, at)};
        line.is_member = memcmp(text->bytes + line.from, member_word, 2) == 0;
        while (!line.is_member && line.to > line.from && text->bytes[line.to - 1] == ')')
            line.to--;
        written->lines[written->count++] = line;
    }
}

/* The line behind a form and all that stands in it. */
static size_t behind_form(const struct written *written, size_t at)
{
    size_t next = at + 1;
    while (next < written->count && written->lines[next].indent > written->lines[at].indent)
        next++;
    return next;
}

static bool same_line(const struct walk *w, size_t before, size_t behind)
{
    const struct line *a = &w->before.lines[before], *b = &w->behind.lines[behind];
    return a->to - a->from == b->to - b->from
        && memcmp(w->before.text->bytes + a->from, w->behind.text->bytes + b->from, a->to - a->from) == 0;
}

/* The kinds of a form, a bit each. */
static unsigned kinds_of(const struct written *written, size_t at)
{
    const struct line *line = &written->lines[at];
    const uint8_t *bytes = written->text->bytes;
    unsigned found = 0;
    size_t word = line->from + strlen(shape_word) + 1;
    for (int i = 0; i < KINDS && word < line->to; i++) {
        size_t length = strlen(kinds[i].word);
        if (line->to - word < length || memcmp(bytes + word, kinds[i].word, length) != 0)
            continue;
        found |= 1u << i;
        word += length + 1;
    }
    return found;
}

static bool has_kind(unsigned of, int kind)
{
    return (of >> kind & 1) != 0;
}

/* ---- words */

/* What leads to the place: the name of each member, as the shape text has it. */
static void say_path(const struct walk *w)
{
    fputs(w->depth == 0 ? "  the record itself" : "  ", w->to);
    for (int i = 0; i < w->depth; i++) {
        const struct line *step = w->steps[i];
        fputs(i == 0 ? "" : ", ", w->to);
        size_t from = step->from + strlen(member_word);
        if (!step->is_member)
            fputs("an element", w->to);
        else if (show_characters(w->to, w->behind.text, from, step->to, MOST_OF_NAME) < step->to)
            fputs("...", w->to);
    }
    fputs(": ", w->to);
}

/* Says kinds one behind the other. With dec, int goes without saying. */
static void say_kinds(FILE *to, unsigned of, bool in_shape)
{
    if (has_kind(of, KIND_DEC))
        of &= ~(1u << KIND_INT);
    for (int i = 0, said = 0; i < KINDS; i++)
        if (has_kind(of, i))
            fprintf(to, "%s%s", said++ == 0 ? "" : " or ", in_shape ? kinds[i].in_shape : kinds[i].in_sample);
}

/* Null is new also where a record lacks the member. */
static void say_new_kinds(const struct walk *w, unsigned before, unsigned behind)
{
    unsigned is_new = behind & ~before, others = is_new & ~(1u << KIND_NULL);
    if (has_kind(is_new, KIND_NULL))
        fputs(w->depth > 0 && w->steps[w->depth - 1]->is_member ? "missing or null" : "null", w->to);
    if (has_kind(is_new, KIND_NULL) && others != 0)
        fputs(" or ", w->to);
    say_kinds(w->to, others, false);
    fputs(", where the shape has ", w->to);
    if (before == 0)
        fputs("nothing yet", w->to);
    say_kinds(w->to, before, true);
    putc('\n', w->to);
}

/* ---- lines */

/* Brackets that close the forms that end with a line, of those shown from one of an indent on; next is the line behind. */
static void close_forms(FILE *to, const struct line *line, size_t next, size_t indent)
{
    size_t until = next < indent ? indent : next;
    for (size_t open = line->indent + 1; !line->is_member && open > until; open--)
        putc(')', to);
}

/* A line, further in than the form of an indent. */
static void show_line(struct walk *w, char mark, const struct written *written, size_t at, size_t indent)
{
    const struct line *line = &written->lines[at];
    if (w->left == 0)
        fprintf(w->to, "    %c ...\n", mark);
    if (w->left-- <= 0)
        return;
    fprintf(w->to, "    %c %*s", mark, (int)(line->indent - indent), "");
    if (show_characters(w->to, written->text, line->from, line->to, MOST_CHARACTERS) < line->to)
        fputs("...", w->to);
    close_forms(w->to, line, at + 1 < written->count ? written->lines[at + 1].indent : 0, indent);
    putc('\n', w->to);
}

static void show_form(struct walk *w, size_t at, size_t indent)
{
    for (size_t end = behind_form(&w->behind, at); at < end; at++)
        show_line(w, '+', &w->behind, at, indent);
}

/* Begins a place, where it is to be shown. */
static bool begin_place(struct walk *w)
{
    w->left = MOST_SHOWN;
    if (w->places++ >= MOST_PLACES)
        return false;
    say_path(w);
    return true;
}

/* ---- comparing: infer adds kinds, elements and members, and takes nothing away */

/* Whether a form within a shape is there since that shape has list or rec, which it had not. */
static bool came_with_kind(const struct walk *w, size_t part, unsigned before)
{
    return !has_kind(before, w->behind.lines[part].is_member ? KIND_REC : KIND_LIST);
}

static void show_kinds(struct walk *w, size_t before, size_t behind)
{
    unsigned had = kinds_of(&w->before, before);
    if (!begin_place(w))
        return;
    size_t indent = w->behind.lines[behind].indent;
    say_new_kinds(w, had, kinds_of(&w->behind, behind));
    show_line(w, '-', &w->before, before, indent);
    show_line(w, '+', &w->behind, behind, indent);
    for (size_t end = behind_form(&w->behind, behind), part = behind + 1; part < end; part = behind_form(&w->behind, part))
        if (came_with_kind(w, part, had))
            show_form(w, part, indent);
}

static void show_member(struct walk *w, size_t member)
{
    w->steps[w->depth++] = &w->behind.lines[member];
    if (begin_place(w)) {
        fputs("a name that the shape does not list there\n", w->to);
        show_form(w, member, w->behind.lines[member].indent);
    }
    w->depth--;
}

static void compare(struct walk *w, size_t before, size_t behind)
{
    unsigned had = kinds_of(&w->before, before);
    size_t old = before + 1, old_end = behind_form(&w->before, before), end = behind_form(&w->behind, behind);
    if (!same_line(w, before, behind))
        show_kinds(w, before, behind);
    for (size_t part = behind + 1; part < end; part = behind_form(&w->behind, part)) {
        bool is_member = w->behind.lines[part].is_member;
        if (came_with_kind(w, part, had))
            continue;
        if (is_member && (old == old_end || !same_line(w, old, part))) {
            show_member(w, part);
            continue;
        }
        w->steps[w->depth++] = &w->behind.lines[part];
        compare(w, old + is_member, part + is_member);
        w->depth--;
        old = behind_form(&w->before, old);
    }
}

void difference_show(FILE *to, const struct text *before, const struct text *behind)
{
    struct walk w;
    char more[NUMBER_WORDS];
    w.to = to;
    w.depth = 0;
    w.places = 0;
    split(&w.before, before);
    split(&w.behind, behind);
    compare(&w, 0, 0);
    if (w.places > MOST_PLACES)
        fprintf(to, "  and %s more such place%s\n", number_in_words(more, w.places - MOST_PLACES),
                w.places == MOST_PLACES + 1 ? "" : "s");
}
