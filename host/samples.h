/* Inferring a shape: samples joined into it one behind the other. */
#ifndef HOST_SAMPLES_H
#define HOST_SAMPLES_H

#include <stdbool.h>
#include <stdint.h>

#include "call.h"
#include "documents.h"
#include "limits.h"
#include "runvestol.h"
#include "status.h"
#include "text.h"

/* The shape reached so far, and two rooms: it stands in one, and the next is written to the other. A shape that is written is
   never longer than a text may be. */
struct inference {
    const struct limits *limits;
    struct text start, shape;
    int other;
    uint8_t rooms[2][RUNVESTOL_MOST_BYTES];
};

/* Begins with the shape in the file `from`, or with (shape) where that is NULL. Where it cannot be read: false, and errno says
   why. */
bool inference_begin(struct inference *inference, const struct limits *limits, const char *from);

/* Joins a sample into the shape; false where the call refuses, which leaves the shape. */
bool inference_join(struct inference *inference, const struct text *sample, struct outcome *o);

void inference_end(struct inference *inference);

/*
 * Writes the shape that the samples reach from the shape in the file `from`, or from (shape) where that is NULL. A sample
 * that is refused is shown and left out. Where the shape is refused that it begins with, or a file cannot be read,
 * nothing is written. A terminal is shown how far it is.
 */
enum status infer_samples(const struct limits *limits, const char *from, const struct source *source);

#endif
