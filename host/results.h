/* Running a reader over documents. */
#ifndef HOST_RESULTS_H
#define HOST_RESULTS_H

#include <stdbool.h>

#include "documents.h"
#include "limits.h"
#include "status.h"

/*
 * Writes what the reader in the file of that name gives on each document, with a line feed behind each where there may be
 * several. A document that is refused is shown and left out, and so is a file that cannot be read; where the reader itself
 * is refused no further document is taken. With steps, says how many each result took.
 */
enum status run_documents(const struct limits *limits, const char *reader, const struct source *source, bool steps);

#endif
