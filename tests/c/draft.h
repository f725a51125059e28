/* Texts put together piece by piece. */
#ifndef DRAFT_H
#define DRAFT_H

#include <stddef.h>
#include <stdint.h>

#include "calls.h"

enum { DRAFT_BYTES = 65536 };

/* A text under way; the next byte is put at its length. */
struct draft {
    size_t length;
    uint8_t bytes[DRAFT_BYTES];
};

void put(struct draft *draft, const char *text);
void put_times(struct draft *draft, const char *text, size_t count);

/* Puts a number in so many digits, with zeros in front. */
void put_number(struct draft *draft, size_t number, int digits);

struct bytes drafted(const struct draft *draft);

#endif
