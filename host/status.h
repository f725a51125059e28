/* How the program ends, and what it says of files that cannot be read or written. */
#ifndef HOST_STATUS_H
#define HOST_STATUS_H

#include <stdbool.h>
#include <stddef.h>
#include <stdint.h>

/* A question that is answered with no ends as a refusal does. */
enum status { DONE = 0, REFUSED = 1, FAILED = 2 };

/* Says what failed, and why by errno. */
enum status fail(const char *what);

/* Closes standard output: it is complete only then, as a full disk may show no earlier. */
enum status close_output(enum status status);

/* Puts out what an operation wrote. Where it ends without a line feed, a terminal gets one behind it, and so does a line. */
void put_result(const uint8_t *bytes, size_t length, bool is_line);

/* Writes what an operation wrote, all that there is to be written. */
enum status write_output(const uint8_t *bytes, size_t length);

/* Writes yes or no, on a line of its own. */
enum status write_verdict(bool yes);

#endif
