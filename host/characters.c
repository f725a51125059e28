#include "characters.h"

#include <stdbool.h>

/* RFC 3629's heads of more than one byte: their range, that of the second byte, and how many bytes follow. */
static const struct head {
    uint8_t first, last, low, high, tails;
} heads[] = {
    {0xC2, 0xDF, 0x80, 0xBF, 1}, {0xE0, 0xE0, 0xA0, 0xBF, 2}, {0xE1, 0xEC, 0x80, 0xBF, 2}, {0xED, 0xED, 0x80, 0x9F, 2},
    {0xEE, 0xEF, 0x80, 0xBF, 2}, {0xF0, 0xF0, 0x90, 0xBF, 3}, {0xF1, 0xF3, 0x80, 0xBF, 3}, {0xF4, 0xF4, 0x80, 0x8F, 3},
};

static const struct head *head_of(uint8_t byte)
{
    for (size_t i = 0; i < sizeof heads / sizeof *heads; i++)
        if (heads[i].first <= byte && byte <= heads[i].last)
            return &heads[i];
    return NULL;
}

size_t character(const struct text *text, size_t at)
{
    const uint8_t *bytes = text->bytes + at;
    const struct head *head = head_of(bytes[0]);
    if (head == NULL || head->tails >= text->length - at || bytes[1] < head->low || bytes[1] > head->high)
        return 1;
    for (size_t i = 2; i <= head->tails; i++)
        if (bytes[i] < 0x80 || bytes[i] > 0xBF)
            return 1;
    return head->tails + 1u;
}

/* Whether a terminal may be handed a character: no control character but the tab, and no stray byte. */
static bool is_shown(const uint8_t *bytes, size_t length)
{
    if (length == 1)
        return bytes[0] == '\t' || (bytes[0] >= 0x20 && bytes[0] < 0x7F);
    return bytes[0] != 0xC2 || bytes[1] >= 0xA0;
}

void show_character(FILE *to, const uint8_t *bytes, size_t length)
{
    if (is_shown(bytes, length))
        fwrite(bytes, 1, length, to);
    else
        putc('?', to);
}

size_t show_characters(FILE *to, const struct text *text, size_t from, size_t end, size_t most)
{
    size_t at = from;
    for (; at < end && most > 0; most--) {
        size_t length = character(text, at);
        show_character(to, text->bytes + at, length);
        at += length;
    }
    return at;
}
