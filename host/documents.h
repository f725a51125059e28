/* Where the documents of a command come from: the files named, each a document or, by lines, one a line. */
#ifndef HOST_DOCUMENTS_H
#define HOST_DOCUMENTS_H

#include <stdbool.h>
#include <stddef.h>

#include "call.h"
#include "lines.h"
#include "refusal.h"
#include "status.h"
#include "text.h"

/* What the command line says of them. */
struct source {
    char **names;
    int count;
    bool by_lines;
    bool several; /* whether there may be several, so that each has its name or its line in what is written */
};

struct document {
    struct text text; /* its name is the file's, and that of a line FILE:LINE */
    bool is_line;
};

struct documents {
    const struct source *source;
    int next;           /* the name behind that of the file at hand */
    struct text whole;  /* that file, where it is a document */
    struct lines lines; /* and where its lines are */
    char *place;        /* FILE:LINE, the file's name being so long */
    size_t name_length;
};

void documents_begin(struct documents *documents, const struct source *source);

/*
 * The next document, which stands until the one behind it is asked for. Where a file cannot be read it is the one that
 * documents_file names, and errno says why; the next one then comes from the file behind it.
 */
enum found documents_next(struct documents *documents, struct document *document);

/* The name of the file at hand. */
const char *documents_file(const struct documents *documents);

void documents_end(struct documents *documents);

/* What a command does with a document; go_on is put to false where no further one is to be taken. */
typedef enum status take_document(void *job, const struct document *document, bool *go_on);

/* Does it with each document, and says which files cannot be read. The worst status; it ends early where standard output
   takes nothing. */
enum status documents_each(const struct source *source, take_document *take, void *job);

/* Shows the refusal of a call on a text and a document. */
void documents_refused(const struct text *first, const struct document *document, const struct outcome *o, reason_of *reason);

#endif
