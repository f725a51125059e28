/* Showing a refusal to a person: where it stands in the text, what it means, the line, and a caret under the place. */
#ifndef HOST_REFUSAL_H
#define HOST_REFUSAL_H

#include <stdbool.h>
#include <stddef.h>
#include <stdint.h>
#include <stdio.h>

#include "call.h"
#include "text.h"

/* Puts into empty words what is to be said of the refusal of a call on these texts; false where there is nothing to say
   beyond what the number means, or no memory. */
typedef bool reason_of(struct text *words, const struct text *texts, const struct outcome *o);

/*
 * Writes `NAME:LINE:COLUMN: refused NUMBER at PLACE: what it means`, and the line with its caret where there is a place, of
 * the text that a call on so many texts refused, the last one where it is of none. Reason may be NULL.
 */
void refusal_show(FILE *to, const struct text *texts, int count, const struct outcome *o, reason_of *reason);

/* The same where the last text is a line of a file, and its name FILE:LINE: of that text it writes NAME:COLUMN. */
void refusal_show_of_line(FILE *to, const struct text *texts, int count, const struct outcome *o, reason_of *reason);

#endif
