/* The library's calls in one table, and a call held to what it has to come to. */
#ifndef CALLS_H
#define CALLS_H

#include "lent.h"

/* The set that a call is made with. */
struct limits {
    uint64_t bytes, values, nesting, steps;
};

extern const struct limits largest, smallest;

/* What is handed to a call; one without a second text or an output leaves that alone. */
struct loan {
    struct limits limits;
    struct lent texts[2], output, answer;
};

enum text_kind { NO_TEXT, DOCUMENT, SHAPE, READER };

struct operation {
    const char *name;
    enum text_kind texts[2];
    bool writes;
    size_t stack; /* what the header asks for */
    uint64_t (*call)(const struct loan *loan);
};

/* The library's calls. */
extern const struct operation operations[];
extern const size_t operation_count;

/* The operation of that name, or NULL where there is none. */
const struct operation *operation_named(const char *name);

/* How many texts an operation has. */
int text_count(const struct operation *operation);

struct bytes {
    const uint8_t *at;
    size_t length;
};

/* A literal's bytes, as an initializer. */
#define BYTES(literal) {(const uint8_t *)(literal), sizeof(literal) - 1}

struct bytes bytes_of(const char *text);

/* What comes of a call: the number, the answer's words, and what is written. */
struct outcome {
    uint64_t number, text, place, length, steps, yes;
    struct bytes written;
};

/* Expects that outcome of the call, with every byte kept that it does not write. */
void expect_outcome(const struct operation *operation, struct loan *loan, const struct outcome *expected);

/* Expects it of texts with an output and an answer buffer of some lengths, each buffer once on every side. */
void expect_with(const struct limits *limits, const struct operation *operation, const struct bytes *texts, size_t output,
                 size_t answer, const struct outcome *expected);

/* With an answer buffer of 40 bytes. */
void expect_at(const struct limits *limits, const struct operation *operation, const struct bytes *texts, size_t output,
               const struct outcome *expected);

/* At the largest set. */
void expect_of_texts(const struct operation *operation, const struct bytes *texts, size_t output,
                     const struct outcome *expected);

/* Takes back all that was lent. */
void take_all_back(struct loan *loan);

#endif
