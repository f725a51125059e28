/* The forms around a place of a reader of which all is right that stands before the place. */
#ifndef HOST_FORMS_H
#define HOST_FORMS_H

#include <stdbool.h>
#include <stddef.h>

#include "text.h"

/* as deep as forms may be nested */
enum { MOST_LEVELS = 32 };

/* Bytes of a text, up to an end. */
struct span {
    size_t from, to;
};

struct form {
    size_t at;             /* its bracket */
    struct span words[2];  /* its own, and the K of when */
    struct span first;     /* its first part, once that is behind */
    int parts;             /* how many of its parts are behind; of a form around the place, those before it */
};

/* The forms around the one whose bracket is at a place, the outermost first, and itself last. How many these are; 0 where
   no form has its bracket there. */
int forms_around(const struct text *reader, size_t place, struct form *forms);

/* The forms that are open at a place, the outermost first. How many these are; the last one has no word yet where the place is
   right behind its bracket. */
int forms_open(const struct text *reader, size_t place, struct form *forms);

/* Whether the bytes of a span are this word. */
bool span_is(const struct text *text, struct span span, const char *word);

#endif
