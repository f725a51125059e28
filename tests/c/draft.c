#include "draft.h"

#include <stdio.h>
#include <stdlib.h>
#include <string.h>

void put(struct draft *draft, const char *text)
{
    size_t length = strlen(text);
    if (length > DRAFT_BYTES - draft->length) {
        fputs("a draft is too long\n", stderr);
        exit(1);
    }
    memcpy(draft->bytes + draft->length, text, length);
    draft->length += length;
}

void put_times(struct draft *draft, const char *text, size_t count)
{
    while (count-- > 0)
        put(draft, text);
}

void put_number(struct draft *draft, size_t number, int digits)
{
    char text[32];
    snprintf(text, sizeof text, "%0*zu", digits, number);
    put(draft, text);
}

struct bytes drafted(const struct draft *draft)
{
    return (struct bytes){draft->bytes, draft->length};
}
