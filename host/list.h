/* Names of files from a list, as find and others write it. */
#ifndef HOST_LIST_H
#define HOST_LIST_H

#include <stdbool.h>

#include "text.h"

struct list {
    struct text text; /* the names stand in it, each with a zero byte behind it */
    char **names;
    int count;
};

/*
 * Reads the list in the file of that name, or on standard input for "-": names with a zero byte behind each where it has
 * any, else one a line; an empty one is passed over. So many names of the command line stand before those of the list.
 * Where it cannot be read: false, and errno says why.
 */
bool list_load(struct list *list, const char *name, char **before, int count);

void list_free(struct list *list);

#endif
