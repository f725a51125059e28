/*
 * Buffers lent to a call. Each stands in pages of its own among guard bytes of a random filling, between two walls:
 * pages that can be neither read nor written. A copy is kept, to see what the call changed.
 */
#ifndef LENT_H
#define LENT_H

#include <stdbool.h>
#include <stddef.h>
#include <stdint.h>

enum side { AMID_GUARDS, AT_FRONT_WALL, AT_BACK_WALL, SIDES };

struct lent {
    uint8_t *bytes;
    size_t length;
    /* the pages around it, and what they held when lent */
    uint8_t *pages, *before;
    size_t size;
};

/* A buffer that holds bytes, or a random filling where bytes is NULL. */
struct lent lend(const uint8_t *bytes, size_t length, enum side side);

/* No buffer at all: a null pointer with the length 0. */
struct lent lend_null(void);

/* Whether the buffer holds these bytes at its front, and all else, guards included, is as it was lent. */
bool changed_only(const struct lent *lent, const uint8_t *front, size_t length);

void take_back(struct lent *lent);

/* Pages between walls, as many as hold a size. */
uint8_t *map_walled(size_t size);
void unmap_walled(uint8_t *pages, size_t size);
size_t whole_pages(size_t size);

#endif
