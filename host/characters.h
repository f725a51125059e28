/* Characters of a text, for a terminal. */
#ifndef HOST_CHARACTERS_H
#define HOST_CHARACTERS_H

#include <stddef.h>
#include <stdint.h>
#include <stdio.h>

#include "text.h"

/* How many bytes the character at a place has; a byte that is no part of UTF-8 stands for itself. */
size_t character(const struct text *text, size_t at);

/* Writes a character of so many bytes, or a question mark where a terminal may not be handed it. */
void show_character(FILE *to, const uint8_t *bytes, size_t length);

/* Writes the characters of a text from a byte on, up to an end and at most so many. Where it stopped. */
size_t show_characters(FILE *to, const struct text *text, size_t from, size_t end, size_t most);

#endif
