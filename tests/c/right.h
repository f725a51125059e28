/* A right call of each operation: texts, and what comes of them where the output is long enough. */
#ifndef RIGHT_H
#define RIGHT_H

#include "calls.h"

struct right_call {
    const char *operation;
    struct bytes texts[2];
    struct outcome outcome;
};

/* There is one for every operation. */
const struct right_call *right_call_of(const struct operation *operation);

/* What comes of the right call with an empty text: it is refused at its end, but for a reader, which means `(none)`. */
struct outcome outcome_of_empty(const struct operation *operation, int text);

/* A text that is refused at its third byte. */
struct bytes broken_text(const struct operation *operation, int text);
struct outcome refused_as_broken(const struct operation *operation, int text);

#endif
