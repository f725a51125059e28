/* The set of four limits that every call takes, and how a person gives it. */
#ifndef HOST_LIMITS_H
#define HOST_LIMITS_H

#include <stdbool.h>
#include <stdint.h>
#include <stdio.h>

struct limits {
    uint64_t bytes, values, nesting, steps;
};

extern const struct limits largest_limits;

/* The words that stand for a set on the command line. */
#define LIMITS_WORDS "BYTES,VALUES,NESTING,STEPS"

/* Reads `BYTES,VALUES,NESTING,STEPS`. Where that is no set whose numbers are all in their ranges: false, and a line says what is
   wrong. */
bool limits_parse(struct limits *limits, const char *words, FILE *wrong);

/* room for a number in words */
enum { NUMBER_WORDS = 32 };

/* A number as a person reads it: 16,384. It is put into room. */
const char *number_in_words(char *room, uint64_t number);

/* Its place in a row: 17th, 513th. It is put into room. */
const char *place_in_words(char *room, uint64_t number);

#endif
