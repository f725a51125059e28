#define _DEFAULT_SOURCE
#include "lent.h"

#include <stdio.h>
#include <stdlib.h>
#include <string.h>
#include <sys/mman.h>
#include <unistd.h>

#include "check.h"

/* the fewest guard bytes on a side that has any */
enum { GUARD = 64 };

static size_t page(void)
{
    return (size_t)sysconf(_SC_PAGESIZE);
}

size_t whole_pages(size_t size)
{
    return (size + page() - 1) / page() * page();
}

uint8_t *map_walled(size_t size)
{
    uint8_t *all = mmap(NULL, size + 2 * page(), PROT_NONE, MAP_PRIVATE | MAP_ANONYMOUS, -1, 0);
    if (all == MAP_FAILED || mprotect(all + page(), size, PROT_READ | PROT_WRITE) != 0) {
        perror("pages for a buffer");
        exit(1);
    }
    return all + page();
}

void unmap_walled(uint8_t *pages, size_t size)
{
    munmap(pages - page(), size + 2 * page());
}

static uint8_t *copy_of(const uint8_t *bytes, size_t size)
{
    uint8_t *copy = malloc(size);
    if (copy == NULL) {
        perror("the copy of a buffer");
        exit(1);
    }
    return memcpy(copy, bytes, size);
}

struct lent lend(const uint8_t *bytes, size_t length, enum side side)
{
    struct lent lent = {.length = length, .size = whole_pages(length + 2 * GUARD)};
    const size_t starts[SIDES] = {GUARD, 0, lent.size - length};
    lent.pages = map_walled(lent.size);
    lent.bytes = lent.pages + starts[side];
    for (size_t i = 0; i < lent.size; i++)
        lent.pages[i] = random_byte();
    if (bytes != NULL)
        memcpy(lent.bytes, bytes, length);
    lent.before = copy_of(lent.pages, lent.size);
    return lent;
}

struct lent lend_null(void)
{
    return (struct lent){.bytes = NULL};
}

bool changed_only(const struct lent *lent, const uint8_t *front, size_t length)
{
    if (lent->pages == NULL)
        return length == 0;
    if (length > lent->length)
        return false;
    size_t start = (size_t)(lent->bytes - lent->pages), end = start + length;
    return memcmp(lent->pages, lent->before, start) == 0
        && (length == 0 || memcmp(lent->bytes, front, length) == 0)
        && memcmp(lent->pages + end, lent->before + end, lent->size - end) == 0;
}

void take_back(struct lent *lent)
{
    if (lent->pages == NULL)
        return;
    unmap_walled(lent->pages, lent->size);
    free(lent->before);
}
