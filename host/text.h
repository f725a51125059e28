/* Texts in memory: a file read whole, whatever its size. */
#ifndef HOST_TEXT_H
#define HOST_TEXT_H

#include <stdbool.h>
#include <stddef.h>
#include <stdint.h>

struct text {
    const char *name; /* as it was given on the command line, or in a list */
    uint8_t *bytes;
    size_t length;
};

/* Reads the file of that name, or standard input for "-". Where it cannot be read: false, and errno says why. */
bool text_load(struct text *text, const char *name);

/* The same into a text that has memory already, which is used again, and kept where the file cannot be read. */
bool text_reload(struct text *text, const char *name);

/* Puts these bytes, or these words, behind the text's own. Where there is no memory: false. */
bool text_add(struct text *text, const void *bytes, size_t length);
bool text_say(struct text *text, const char *words);

void text_free(struct text *text);

/* Whether a byte is white space as JSON has it, and whether nothing else stands before a place. */
bool is_blank(uint8_t byte);
bool blank_before(const struct text *text, size_t place);

/* Where the line of a byte ends: its line feed, or the end of the text. */
size_t line_end(const struct text *text, size_t at);

/* How many spaces stand from a byte on. */
size_t line_spaces(const struct text *text, size_t at);

#endif
