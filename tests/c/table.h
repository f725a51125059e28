/* Calls on two texts with their outcomes, side by side in a table. */
#ifndef TABLE_H
#define TABLE_H

#include "calls.h"

struct table_case {
    const char *name;
    const char *operation, *texts[2];
    const char *written; /* NULL where nothing is */
    uint64_t yes, number, text, place, steps;
};

/* The last fields of a case. A shape is written with a line feed at its end. */
#define WRITES(shape) shape "\n", 0, RUNVESTOL_OK, 0, 0, 0
#define GIVES(json, steps) json, 0, RUNVESTOL_OK, 0, 0, steps
#define SAYS_YES NULL, 1, RUNVESTOL_OK, 0, 0, 0
#define SAYS_NO NULL, 0, RUNVESTOL_OK, 0, 0, 0
#define REFUSES(number, text, place) NULL, 0, RUNVESTOL_##number, text, place, 0
#define TOO_LARGE NULL, 0, RUNVESTOL_SHAPE_LIMIT, 0, 0, 0

/* Runs each as a case, with an output as long as what is written. */
void run_table(const struct table_case *cases, size_t count);

#endif
