#define _POSIX_C_SOURCE 200809L
#include "lines.h"

#include <errno.h>
#include <fcntl.h>
#include <string.h>
#include <unistd.h>

#include "runvestol.h"

/* as many bytes of a line as have to be kept: one over every limit, also without a carriage return at the end */
enum { KEPT = RUNVESTOL_MOST_BYTES + 2 };

bool lines_open(struct lines *lines, const char *name)
{
    lines->is_standard = strcmp(name, "-") == 0;
    lines->file = lines->is_standard ? STDIN_FILENO : open(name, O_RDONLY);
    lines->number = lines->from = lines->to = 0;
    lines->ended = false;
    return lines->file >= 0;
}

void lines_close(struct lines *lines)
{
    int why = errno;
    if (lines->file >= 0 && !lines->is_standard)
        close(lines->file);
    lines->file = -1;
    errno = why;
}

/* Has the first bytes stand for a line that goes on behind them, and is too long whatever follows. Where all of these are
   blank the last one becomes one that is not, once there is such a one: only then the line is a document. */
static void cut_line(struct lines *lines)
{
    size_t end = lines->from + KEPT;
    for (size_t at = end; at < lines->to; at++)
        if (!is_blank(lines->room[at]))
            lines->room[end - 1] = lines->room[at];
    lines->to = end;
}

/* Reads what there is now, so that a line is handed on once it has come. */
static bool read_more(struct lines *lines)
{
    if (lines->to - lines->from > KEPT)
        cut_line(lines);
    memmove(lines->room, lines->room + lines->from, lines->to - lines->from);
    lines->to -= lines->from;
    lines->from = 0;
    ssize_t count;
    do
        count = read(lines->file, lines->room + lines->to, LINES_ROOM - lines->to);
    while (count < 0 && errno == EINTR);
    lines->ended = count == 0;
    lines->to += count > 0 ? (size_t)count : 0;
    return count >= 0;
}

/* The next line, blank or not, with its carriage return. */
static enum found any_line(struct lines *lines, struct text *line)
{
    uint8_t *feed;
    while ((feed = memchr(lines->room + lines->from, '\n', lines->to - lines->from)) == NULL && !lines->ended)
        if (!read_more(lines))
            return UNREADABLE;
    if (feed == NULL && lines->from == lines->to)
        return NONE_LEFT;
    line->bytes = lines->room + lines->from;
    line->length = feed == NULL ? lines->to - lines->from : (size_t)(feed - line->bytes);
    lines->from += line->length + (feed != NULL);
    lines->number++;
    return FOUND;
}

enum found lines_next(struct lines *lines, struct text *line)
{
    enum found found;
    do
        found = any_line(lines, line);
    while (found == FOUND && blank_before(line, line->length));
    if (found == FOUND && line->bytes[line->length - 1] == '\r')
        line->length--;
    return found;
}
