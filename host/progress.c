#define _POSIX_C_SOURCE 200809L
#include "progress.h"

#include <stdio.h>
#include <time.h>
#include <unistd.h>

#include "limits.h"

enum { PAUSE = 100000000 }; /* nanoseconds */

static int64_t now(void)
{
    struct timespec time;
    clock_gettime(CLOCK_MONOTONIC, &time);
    return (int64_t)time.tv_sec * 1000000000 + time.tv_nsec;
}

void progress_begin(struct progress *progress, const char *one, const char *several)
{
    *progress = (struct progress){.at_terminal = isatty(STDERR_FILENO), .one = one, .several = several};
    progress->told = now();
}

/* Whether the pause is over, which then begins anew. What is done within the first is never told. */
static bool is_due(struct progress *progress)
{
    int64_t time = now();
    if (time - progress->told < PAUSE)
        return false;
    progress->told = time;
    return true;
}

void progress_count(struct progress *progress, bool is_refused)
{
    char count[NUMBER_WORDS], refused[NUMBER_WORDS];
    progress->count++;
    progress->refused += is_refused;
    if (!progress->at_terminal || !is_due(progress))
        return;
    number_in_words(count, progress->count);
    number_in_words(refused, progress->refused);
    const char *what = progress->count == 1 ? progress->one : progress->several;
    progress->width = fprintf(stderr, "\r%s %s, %s refused", count, what, refused) - 1;
}

void progress_clear(struct progress *progress)
{
    if (progress->width > 0)
        fprintf(stderr, "\r%*s\r", progress->width, "");
    progress->width = 0;
}
