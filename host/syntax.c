#include "syntax.h"

#include <stdio.h>
#include <string.h>

#include "forms.h"
#include "runvestol.h"

/* How each form goes, and what it wants where a number or a text has to stand. */
static const struct pattern {
    const char *form, *whole, *own;
} patterns[] = {
    {"it", "(it N)", NULL},
    {"field", "(field \"name\" P)", "a name in plain quotes here"},
    {"int", "(int P)", NULL},
    {"dec", "(dec P)", NULL},
    {"bool", "(bool P)", NULL},
    {"text", "(text P)", NULL},
    {"keep", "(keep P)", NULL},
    {"count", "(count P)", NULL},
    {"each", "(each P R)", NULL},
    {"when", "(when K P R R)", NULL},
    {"if", "(if R R R)", NULL},
    {"num", "(num N)", "a number here, of at most 18 digits, at most 9 of them behind the point, and no exponent"},
    {"str", "(str \"t\")", "a text in plain quotes here"},
    {"yes", "(yes)", NULL},
    {"no", "(no)", NULL},
    {"none", "(none)", NULL},
    {"pack", "(pack \"name\" R ...)", "a name in plain quotes here that it does not have yet, or its )"},
};

static const char place_words[] = "a place here, (it N) or (field \"name\" P)";
static const char result_words[] =
    "a result here, (keep P) or one of int, dec, bool, text, count, each, when, if, num, str, yes, no, none, pack";

/* What may come next in a reader: the tokens that the library is asked about, and how it is said; NULL where that is the form's
   own. Only pack may go on in two ways, a name and its bracket, and its own words have both. */
static const struct next {
    const char *tokens, *words;
} nexts[] = {
    {"(it", place_words}, {"it", place_words}, {"(yes", result_words}, {"yes", result_words},
    {"null", "a kind here: null, bool, int, num, text, list or rec"},
    {"0", NULL}, {"\"a name that no record has\"", NULL}, {")", "its ) here"},
};

enum { PATTERNS = sizeof patterns / sizeof *patterns, NEXTS = sizeof nexts / sizeof *nexts };

/* How far the library reads. */
enum reading { REFUSED_BEFORE, TO_THE_END, AS_A_WHOLE };

/* Reads what stands before the refused place, with these tokens behind it; the empty document is judged only behind a reader
   that is whole. So it is the library that says what may stand there. */
static enum reading read_on(const struct text *reader, const struct outcome *refused, const char *tokens)
{
    struct text texts[] = {{NULL, NULL, 0}, {NULL, NULL, 0}};
    enum reading reading = REFUSED_BEFORE;
    if (text_add(&texts[0], reader->bytes, refused->place) && text_say(&texts[0], " ") && text_say(&texts[0], tokens)) {
        struct outcome o = make_call(call_run, &refused->limits, texts, (struct output){NULL, 0});
        if (o.text == 2)
            reading = AS_A_WHOLE;
        else if (o.number == RUNVESTOL_FORM_SYNTAX && o.place == texts[0].length)
            reading = TO_THE_END;
    }
    text_free(&texts[0]);
    return reading;
}

static const struct next *next_of(const struct text *reader, const struct outcome *refused)
{
    for (int i = 0; i < NEXTS; i++)
        if (read_on(reader, refused, nexts[i].tokens) != REFUSED_BEFORE)
            return &nexts[i];
    return NULL;
}

/* The form that the place is of: the innermost open one that has its word; NULL where there is none. */
static const struct pattern *pattern_at(const struct text *reader, size_t place)
{
    struct form forms[MOST_LEVELS];
    int count = forms_open(reader, place, forms);
    if (count > 0 && forms[count - 1].words[0].to == 0)
        count--;
    for (int i = 0; count > 0 && i < PATTERNS; i++)
        if (span_is(reader, forms[count - 1].words[0], patterns[i].form))
            return &patterns[i];
    return NULL;
}

/* What it wants: as many numbers as there are bindings, from 0 on. */
static bool say_bindings(struct text *words, const struct text *reader, const struct outcome *refused)
{
    char number[NUMBER_WORDS] = "0", last[NUMBER_WORDS];
    int count = 0;
    do {
        snprintf(last, sizeof last, "%s", number);
        snprintf(number, sizeof number, "%d", ++count);
    } while (read_on(reader, refused, number) != REFUSED_BEFORE);
    return (count == 1 || text_say(words, "a number from 0 to ")) && text_say(words, last) && text_say(words, " here");
}

static bool say_next(struct text *words, const struct text *reader, const struct outcome *refused)
{
    const struct pattern *pattern = pattern_at(reader, refused->place);
    const struct next *next = next_of(reader, refused);
    if (next == NULL || !text_say(words, pattern == NULL ? "a reader" : pattern->whole) || !text_say(words, " wants "))
        return false;
    if (next->words != NULL)
        return text_say(words, next->words);
    if (pattern == NULL)
        return false;
    return pattern->own == NULL ? say_bindings(words, reader, refused) : text_say(words, pattern->own);
}

/* Whether the text begins with a byte order mark, as some editors write and none shows. */
static bool has_mark(const struct text *text)
{
    static const uint8_t mark[] = {0xEF, 0xBB, 0xBF};
    return text->length >= sizeof mark && memcmp(text->bytes, mark, sizeof mark) == 0;
}

bool reason_of_syntax(struct text *words, const struct text *texts, const struct outcome *o)
{
    const struct text *reader = &texts[0];
    if (o->text != 1)
        return false;
    if (has_mark(reader))
        return text_say(words, "the text begins with a byte order mark; it has to be saved as UTF-8 without one");
    /* white space alone is a whole reader too, but no one would say that something stands behind it */
    if (!blank_before(reader, o->place) && read_on(reader, o, "") == AS_A_WHOLE)
        return text_say(words, "the reader is whole, and nothing may stand behind it");
    return (o->place < reader->length || text_say(words, "the text ends, and ")) && say_next(words, reader, o);
}
