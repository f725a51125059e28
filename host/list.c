#include "list.h"

#include <errno.h>
#include <limits.h>
#include <stdlib.h>
#include <string.h>

/* Puts a zero byte behind each name. How many names there may be, empty ones among them. */
static bool end_names(struct text *text, size_t *most)
{
    uint8_t separator = text->length > 0 && memchr(text->bytes, '\0', text->length) != NULL ? '\0' : '\n';
    if (!text_add(text, "", 1))
        return false;
    *most = 1;
    for (size_t at = 0; at < text->length - 1; at++) {
        if (text->bytes[at] == separator) {
            text->bytes[at] = '\0';
            ++*most;
        }
    }
    return true;
}

static void point_at_names(struct list *list)
{
    char *bytes = (char *)list->text.bytes;
    for (size_t at = 0; at < list->text.length; at += strlen(bytes + at) + 1)
        if (bytes[at] != '\0')
            list->names[list->count++] = bytes + at;
}

bool list_load(struct list *list, const char *name, char **before, int count)
{
    size_t most;
    *list = (struct list){.names = NULL};
    if (!text_load(&list->text, name) || !end_names(&list->text, &most))
        return false;
    if (most > INT_MAX - (size_t)count) {
        errno = EFBIG;
        return false;
    }
    list->names = malloc((most + (size_t)count) * sizeof *list->names);
    if (list->names == NULL)
        return false;
    for (; list->count < count; list->count++)
        list->names[list->count] = before[list->count];
    point_at_names(list);
    return true;
}

void list_free(struct list *list)
{
    free(list->names);
    text_free(&list->text);
}
