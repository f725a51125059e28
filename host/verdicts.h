/* Asking of documents whether a shape admits them. */
#ifndef HOST_VERDICTS_H
#define HOST_VERDICTS_H

#include "documents.h"
#include "limits.h"
#include "status.h"

/*
 * Writes of each document whether the shape in the file of that name admits it: yes or no, behind the document's name where
 * there may be several. Where it does not, says what would change in the shape were the document a sample. A document that
 * is refused is shown and left out, and so is a file that cannot be read; where the shape itself is refused no further
 * document is taken.
 */
enum status judge_documents(const struct limits *limits, const char *shape, const struct source *source);

#endif
