/* Trying a reader on samples, as who wrote it does before others run it. */
#ifndef HOST_TRY_H
#define HOST_TRY_H

#include "documents.h"
#include "limits.h"
#include "status.h"

/*
 * Shows, for the reader of the file of that name, the shape that the samples reach, its result shape, and what it gives on
 * each. What is long is cut, so that all of it fits a screen. The first refusal ends it: a sample's or that of a text
 * that is no reader stands alone, any other behind what was reached. Where a file cannot be read nothing is shown.
 */
enum status try_reader(const struct limits *limits, const char *reader, const struct source *samples);

#endif
