/* Rows of a vector file, each a call with its outcome, run through the library's calls. */
#ifndef VECTORS_H
#define VECTORS_H

/* Runs each row as a case; one that cannot be read fails. Rows with a work slice that is too short are left out, each named on a
   line. A further case has these be so many, and some row be run. */
void run_vectors(const char *path, int left_out);

#endif
