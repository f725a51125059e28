#include "text.h"

#include <errno.h>
#include <stdio.h>
#include <stdlib.h>
#include <string.h>

static bool grow(struct text *text, size_t room)
{
    uint8_t *more = realloc(text->bytes, room);
    if (more == NULL)
        return false;
    text->bytes = more;
    return true;
}

static bool read_all(FILE *stream, struct text *text)
{
    for (size_t room = 32768; grow(text, room); room *= 2) {
        text->length += fread(text->bytes + text->length, 1, room - text->length, stream);
        if (text->length < room)
            return !ferror(stream);
    }
    return false;
}

bool text_load(struct text *text, const char *name)
{
    *text = (struct text){name, NULL, 0};
    if (text_reload(text, name))
        return true;
    int why = errno;
    text_free(text);
    errno = why;
    return false;
}

bool text_reload(struct text *text, const char *name)
{
    bool standard = strcmp(name, "-") == 0;
    FILE *stream = standard ? stdin : fopen(name, "rb");
    text->name = name;
    text->length = 0;
    if (stream == NULL)
        return false;
    bool read = read_all(stream, text);
    int why = errno;
    if (!standard)
        fclose(stream);
    errno = why;
    return read;
}

bool text_add(struct text *text, const void *bytes, size_t length)
{
    if (length == 0)
        return true;
    if (!grow(text, text->length + length))
        return false;
    memcpy(text->bytes + text->length, bytes, length);
    text->length += length;
    return true;
}

bool text_say(struct text *text, const char *words)
{
    return text_add(text, words, strlen(words));
}

void text_free(struct text *text)
{
    free(text->bytes);
    text->bytes = NULL;
    text->length = 0;
}

bool is_blank(uint8_t byte)
{
    return byte == ' ' || byte == '\t' || byte == '\n' || byte == '\r';
}

bool blank_before(const struct text *text, size_t place)
{
    size_t at = 0;
    while (at < place && is_blank(text->bytes[at]))
        at++;
    return at == place;
}

size_t line_end(const struct text *text, size_t at)
{
    while (at < text->length && text->bytes[at] != '\n')
        at++;
    return at;
}

size_t line_spaces(const struct text *text, size_t at)
{
    size_t from = at;
    while (at < text->length && text->bytes[at] == ' ')
        at++;
    return at - from;
}
