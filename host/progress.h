/* A line at a terminal that counts what is done, rewritten in place. In a pipe there is none. */
#ifndef HOST_PROGRESS_H
#define HOST_PROGRESS_H

#include <stdbool.h>
#include <stdint.h>

struct progress {
    bool at_terminal;
    const char *one, *several; /* what is counted */
    uint64_t count, refused;
    int64_t told; /* when the line was last written, in nanoseconds */
    int width;    /* of the line that stands now, 0 where none does */
};

void progress_begin(struct progress *progress, const char *one, const char *several);

/* Counts one more, and writes the line where the last one is a tenth of a second old. */
void progress_count(struct progress *progress, bool is_refused);

/* Takes the line away: at the end, and before anything else is said. */
void progress_clear(struct progress *progress);

#endif
