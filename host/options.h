/* The options that stand right behind a command, in any order. */
#ifndef HOST_OPTIONS_H
#define HOST_OPTIONS_H

#include <stdbool.h>
#include <stdio.h>

enum option { FROM, STEPS, FILES_FROM, LINES, OPTIONS };

/* Options of a command as bits. Those of documents go with every command whose last operand is DOCUMENT... */
enum { NO_OPTION = 0, OF_DOCUMENTS = 1 << FILES_FROM | 1 << LINES };

bool has_option(unsigned options, int option);

/* Which option a word is, or OPTIONS. */
int option_named(const char *word);

/* Whether a word begins as an option does; - alone is a file. */
bool is_option(const char *word);

/* Writes an option, and what the file behind it is called. */
void option_say(FILE *to, int option);

/*
 * Takes those of the options that stand at the front of the words: given has the file of each, or its own word where it has
 * none, and NULL where it is not there. How many words that are; an option is left where it is given twice, or has no file
 * behind it.
 */
int options_take(unsigned options, const char **given, int count, char **words);

#endif
