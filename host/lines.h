/* A file read line by line, in memory that does not grow with it. */
#ifndef HOST_LINES_H
#define HOST_LINES_H

#include <stdbool.h>
#include <stddef.h>
#include <stdint.h>

#include "text.h"

/* What comes of looking for the next line, or the next document. */
enum found { FOUND, NONE_LEFT, UNREADABLE };

enum { LINES_ROOM = 65536 };

struct lines {
    int file; /* -1 where none is open */
    bool is_standard, ended;
    size_t number;   /* of the line found last, from 1 */
    size_t from, to; /* of the room, what is read and not handed on yet */
    uint8_t room[LINES_ROOM];
};

/* Opens the file of that name, or standard input for "-". Where it cannot be opened: false, and errno says why. */
bool lines_open(struct lines *lines, const char *name);

/*
 * The next line that is not blank, without the line feed, or the carriage return and line feed, that ends it. It stands
 * until the next is asked for. Of one that is longer than any text may be only so many bytes may be there that it still
 * is. Where the file cannot be read errno says why.
 */
enum found lines_next(struct lines *lines, struct text *line);

/* Closes the file, and leaves errno as it is. */
void lines_close(struct lines *lines);

#endif
