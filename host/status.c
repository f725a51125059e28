#define _POSIX_C_SOURCE 200809L
#include "status.h"

#include <errno.h>
#include <stdio.h>
#include <string.h>
#include <unistd.h>

enum status fail(const char *what)
{
    fprintf(stderr, "runvestol: %s: %s\n", what, strerror(errno));
    return FAILED;
}

enum status close_output(enum status status)
{
    bool written = !ferror(stdout);
    return fclose(stdout) == 0 && written ? status : fail("standard output");
}

void put_result(const uint8_t *bytes, size_t length, bool is_line)
{
    bool ends = length > 0 && bytes[length - 1] == '\n';
    if (fwrite(bytes, 1, length, stdout) == length && !ends && (is_line || isatty(STDOUT_FILENO)))
        putchar('\n');
}

enum status write_output(const uint8_t *bytes, size_t length)
{
    put_result(bytes, length, false);
    return close_output(DONE);
}

enum status write_verdict(bool yes)
{
    puts(yes ? "yes" : "no");
    return close_output(yes ? DONE : REFUSED);
}
