/* The library's calls, on texts in memory. */
#ifndef HOST_CALL_H
#define HOST_CALL_H

#include <stdbool.h>
#include <stddef.h>
#include <stdint.h>

#include "limits.h"
#include "text.h"

enum { MOST_TEXTS = 2 };

/* Where a call writes. */
struct output {
    uint8_t *bytes;
    size_t length;
};

/* What came of a call, and the set that it was made with. */
struct outcome {
    struct limits limits;
    uint64_t number, text, place, length, steps;
    bool yes;
};

/* A call on its texts, in the order of its parameters; one that has no output leaves that alone. */
typedef uint64_t library_call(const struct limits *limits, const struct text *texts, struct output output, uint8_t *answer);

library_call call_plain, call_infer, call_join, call_below, call_admits, call_check, call_run;

struct outcome make_call(library_call *call, const struct limits *limits, const struct text *texts, struct output output);

/*
 * Calls, and calls again where the output was too short, now as long as it has to be. The output begins empty, and is kept
 * from call to call and freed by the caller. Where there is no memory: false, and errno says why.
 */
bool call_with_room(library_call *call, const struct limits *limits, const struct text *texts, struct output *output,
                    struct outcome *o);

#endif
