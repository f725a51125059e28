/* The program `runvestol` over the library: reads files, calls an operation, shows what came out. */
#include <stdio.h>
#include <stdlib.h>
#include <string.h>

#include "call.h"
#include "documents.h"
#include "limits.h"
#include "list.h"
#include "options.h"
#include "reason.h"
#include "refusal.h"
#include "results.h"
#include "runvestol.h"
#include "samples.h"
#include "status.h"
#include "text.h"
#include "try.h"
#include "verdicts.h"

/* The files of a command line, and the set for all calls. */
struct files {
    struct limits limits;
    const char *given[OPTIONS]; /* the file of each option, or its own word where it has none; NULL where it is not there */
    char **names;
    int count;
};

struct command {
    const char *name;
    const char *operands;
    const char *effect;
    int least, most; /* files, those of options apart; most is 0 for any number */
    unsigned options;
    enum status (*run)(const struct command *command, const struct files *files);
    /* of a command that is one call: that call, how its success is shown, and what says more of a refusal, or NULL */
    library_call *call;
    enum status (*show)(const struct output *output, const struct outcome *o);
    reason_of *reason;
};

static enum status run_once(const struct command *command, const struct files *files);
static enum status run_infer(const struct command *command, const struct files *files);
static enum status run_admits(const struct command *command, const struct files *files);
static enum status run_run(const struct command *command, const struct files *files);
static enum status run_try(const struct command *command, const struct files *files);
static enum status show_written(const struct output *output, const struct outcome *o);
static enum status show_verdict(const struct output *output, const struct outcome *o);

#define ONE_CALL(texts, call, show) texts, texts, NO_OPTION, run_once, call, show, NULL

static const struct command commands[] = {
    {"plain", "FILE", "write the JSON document of FILE as plain JSON", ONE_CALL(1, call_plain, show_written)},
    {"infer", "DOCUMENT...", "write the shape that the documents reach, from (shape) or from SHAPE on",
     1, 0, 1 << FROM | OF_DOCUMENTS, run_infer, NULL, NULL, NULL},
    {"join", "A B", "write the join of the shapes of A and B", ONE_CALL(2, call_join, show_written)},
    {"below", "A B", "say whether the shape of A is below that of B", ONE_CALL(2, call_below, show_verdict)},
    {"admits", "SHAPE DOCUMENT...", "say whether the shape admits each document, and why not",
     2, 0, OF_DOCUMENTS, run_admits, NULL, NULL, NULL},
    {"check", "READER SHAPE", "check the reader against the shape, and write its result shape",
     2, 2, NO_OPTION, run_once, call_check, show_written, reason_of_check},
    {"run", "READER DOCUMENT...", "write what the reader gives on each document",
     2, 0, 1 << STEPS | OF_DOCUMENTS, run_run, NULL, NULL, NULL},
    {"try", "READER SAMPLE...", "show the shape that the samples reach, the reader's result shape, and what it gives on each",
     2, 0, OF_DOCUMENTS, run_try, NULL, NULL, NULL},
};

enum { COMMANDS = sizeof commands / sizeof *commands };

/* ---- words to the user */

static void usage(FILE *to)
{
    for (int i = 0; i < COMMANDS; i++) {
        fprintf(to, "%s runvestol %s ", i == 0 ? "usage:" : "      ", commands[i].name);
        for (int option = 0; option < OPTIONS; option++) {
            if (has_option(commands[i].options, option)) {
                putc('[', to);
                option_say(to, option);
                fputs("] ", to);
            }
        }
        fprintf(to, "%s\n", commands[i].operands);
    }
    fputs("       runvestol --limits " LIMITS_WORDS " ..., with any of these behind it\n", to);
    fputs("       runvestol --help | --version\n", to);
}

static void help(FILE *to)
{
    usage(to);
    fputs("\n", to);
    for (int i = 0; i < COMMANDS; i++)
        fprintf(to, "  %-8s %s\n", commands[i].name, commands[i].effect);
    fputs("\n"
          "Each operand is a file; - is standard input, once, and a file whose name begins with - is ./-name. What an\n"
          "operation writes goes to standard output byte for byte, with a line feed behind it only where that is a\n"
          "terminal and it ends without one. below and admits write yes or no and a line feed, admits behind the name of the\n"
          "document and a colon where there may be several.\n"
          "\n"
          "With --files-from the documents are in the files that LIST names, and no DOCUMENT stands behind: LIST has a zero\n"
          "byte behind each name, as find -print0 writes it, or where it has none a name a line. With --lines each DOCUMENT\n"
          "is a file of records, one a line; blank lines are passed over, and a line may end in a carriage return and a\n"
          "line feed. Such a record is called FILE:LINE. Options stand right behind the command, in any order.\n"
          "\n"
          "A refusal goes to standard error as\n"
          "\n"
          "  FILE:LINE:COLUMN: refused N at P: what it means\n"
          "\n"
          "with the line and a caret under the place. P counts bytes from 0. LINE and COLUMN count from 1: lines end at\n"
          "line feeds, and a column is a character, as a tab is one; a byte that is not UTF-8 is one too. In the line\n"
          "shown, such bytes and control characters are ?, and a long line is cut. Where a refusal has no place it is\n"
          "1:1 at 0, without a line: of a text that is too long, and of the last file where the shape to be written is\n"
          "too large. check says what the form wants that is refused, and what it meets where that can be told. With --lines\n"
          "LINE is that of the file, and P counts from the record's first byte.\n"
          "\n"
          "infer leaves out the documents that are refused, and writes the shape that the others reach; a terminal on\n"
          "standard error shows how many it has taken. admits and run leave them out too. Where the shape does not admit a\n"
          "document, admits tells on standard error which lines of the shape would change were it a sample, old ones behind\n"
          "- and new ones behind +, under the names that lead there. run writes each result on a line of its own where\n"
          "there may be several documents; with --steps it tells on standard error how many steps each took. try is for\n"
          "a person: it cuts what is long, and ends with the first refusal.\n"
          "\n"
          "The four numbers of --limits are those that documents, shapes and readers are held to: bytes of a text, 1,024 to\n"
          "16,384; values, or forms, 16 to 512; nesting, 4 to 32; and steps of a run, 256 to 65,536. Without it each is the\n"
          "largest.\n"
          "\n"
          "Status: 0 done, or yes; 1 refused, or no; 2 wrong usage, or a file that cannot be read or written.\n",
          to);
}

static enum status misused(const char *what, const char *word)
{
    fprintf(stderr, "runvestol: %s%s%s\n", what, word == NULL ? "" : ": ", word == NULL ? "" : word);
    usage(stderr);
    return FAILED;
}

/* ---- a command that is one call */

static enum status show_written(const struct output *output, const struct outcome *o)
{
    return write_output(output->bytes, o->length);
}

static enum status show_verdict(const struct output *output, const struct outcome *o)
{
    (void)output;
    return write_verdict(o->yes);
}

static enum status operate(const struct command *command, const struct limits *limits, const struct text *texts, int count)
{
    struct output output = {NULL, 0};
    struct outcome o;
    enum status status = REFUSED;
    if (!call_with_room(command->call, limits, texts, &output, &o))
        status = fail("the output");
    else if (o.number == RUNVESTOL_OK)
        status = command->show(&output, &o);
    else
        refusal_show(stderr, texts, count, &o, command->reason);
    free(output.bytes);
    return status;
}

static enum status run_once(const struct command *command, const struct files *files)
{
    struct text texts[MOST_TEXTS];
    int loaded = 0;
    while (loaded < files->count && text_load(&texts[loaded], files->names[loaded]))
        loaded++;
    enum status status = loaded < files->count ? fail(files->names[loaded]) : operate(command, &files->limits, texts, loaded);
    while (loaded > 0)
        text_free(&texts[--loaded]);
    return status;
}

/* ---- a command of many calls */

/* The documents of a command, which stand behind its other files. A list or a file of records may have several. */
static struct source documents_of(const struct command *command, const struct files *files)
{
    int others = command->least - 1, count = files->count - others;
    bool by_lines = files->given[LINES] != NULL;
    return (struct source){files->names + others, count, by_lines, by_lines || files->given[FILES_FROM] != NULL || count > 1};
}

static enum status run_infer(const struct command *command, const struct files *files)
{
    const struct source source = documents_of(command, files);
    return infer_samples(&files->limits, files->given[FROM], &source);
}

static enum status run_admits(const struct command *command, const struct files *files)
{
    const struct source source = documents_of(command, files);
    return judge_documents(&files->limits, files->names[0], &source);
}

static enum status run_run(const struct command *command, const struct files *files)
{
    const struct source source = documents_of(command, files);
    return run_documents(&files->limits, files->names[0], &source, files->given[STEPS] != NULL);
}

static enum status run_try(const struct command *command, const struct files *files)
{
    const struct source source = documents_of(command, files);
    return try_reader(&files->limits, files->names[0], &source);
}

/* ---- the words of the command line */

/* the one option before the command */
static const char limits_option[] = "--limits";

static const struct command *command_named(const char *name)
{
    for (int i = 0; i < COMMANDS; i++)
        if (strcmp(name, commands[i].name) == 0)
            return &commands[i];
    return NULL;
}

/* Says behind which commands an option stands. */
static enum status misplaced(int option)
{
    int left = 0;
    for (int i = 0; i < COMMANDS; i++)
        left += has_option(commands[i].options, option);
    fputs("runvestol: ", stderr);
    option_say(stderr, option);
    fputs(" stands right behind ", stderr);
    for (int i = 0; i < COMMANDS; i++) {
        if (has_option(commands[i].options, option)) {
            left--;
            fprintf(stderr, "%s%s", commands[i].name, left > 1 ? ", " : left == 1 ? " or " : "\n");
        }
    }
    usage(stderr);
    return FAILED;
}

/* What becomes of a word that begins as an option does, and is not one of the command's where it stands. */
static enum status run_option(const struct files *files, const char *word)
{
    int option = option_named(word);
    if (option < OPTIONS && files->given[option] != NULL)
        return misused("an option is given twice", word);
    if (option < OPTIONS)
        return misplaced(option);
    if (strcmp(word, limits_option) == 0)
        return misused("--limits " LIMITS_WORDS " stands before the command", NULL);
    if (strcmp(word, "--help") == 0)
        help(stdout);
    else if (strcmp(word, "--version") == 0)
        puts("runvestol " RUNVESTOL_VERSION);
    else
        return misused("unknown option", word);
    return close_output(DONE);
}

static int standard_inputs(const struct files *files)
{
    int count = 0;
    for (int i = 0; i < OPTIONS; i++)
        count += files->given[i] != NULL && strcmp(files->given[i], "-") == 0;
    for (int i = 0; i < files->count; i++)
        count += strcmp(files->names[i], "-") == 0;
    return count;
}

static enum status run_command(const struct command *command, const struct files *files)
{
    if (files->count < command->least)
        return misused("a FILE is missing", command->name);
    if (command->most > 0 && files->count > command->most)
        return misused("too many words", command->name);
    if (standard_inputs(files) > 1)
        return misused("standard input is named twice", command->name);
    return command->run(command, files);
}

/* With the files that a list names in place of the last operand. */
static enum status run_listed(const struct command *command, const struct files *files)
{
    struct list list;
    struct files all = *files;
    enum status status = FAILED;
    if (files->count < command->least - 1)
        return misused("a FILE is missing", command->name);
    if (files->count > command->least - 1)
        return misused("--files-from LIST names the documents, and so does a word", files->names[command->least - 1]);
    if (standard_inputs(files) > 1)
        return misused("standard input is named twice", command->name);
    if (!list_load(&list, files->given[FILES_FROM], files->names, files->count))
        fail(files->given[FILES_FROM]);
    else if (list.count == files->count)
        fprintf(stderr, "runvestol: %s: the list names no file\n", files->given[FILES_FROM]);
    else {
        all.names = list.names;
        all.count = list.count;
        status = run_command(command, &all);
    }
    list_free(&list);
    return status;
}

/* The word that asks for help or the version, else the first behind so many that begins as an option does, or NULL. */
static const char *option_of(int count, char **words, int from)
{
    const char *first = NULL;
    for (int i = count - 1; i >= from; i--)
        if (is_option(words[i]))
            first = words[i];
    for (int i = 1; i < count; i++)
        if (strcmp(words[i], "--help") == 0 || strcmp(words[i], "--version") == 0)
            return words[i];
    return first;
}

/* Runs what the words behind --limits say, the first being the program's name. */
static enum status run_words(const struct limits *limits, int count, char **words)
{
    const struct command *command = count < 2 ? NULL : command_named(words[1]);
    struct files files = {.limits = *limits};
    int first = command == NULL ? 1 : 2 + options_take(command->options, files.given, count - 2, words + 2);
    const char *option = option_of(count, words, first);
    if (option != NULL)
        return run_option(&files, option);
    if (count < 2)
        return misused("a command is missing", NULL);
    if (command == NULL)
        return misused("unknown command", words[1]);
    files.names = words + first;
    files.count = count - first;
    return files.given[FILES_FROM] != NULL ? run_listed(command, &files) : run_command(command, &files);
}

/* With a set of limits of its own, which stands before the command. */
static enum status run_limited(int count, char **words)
{
    struct limits limits;
    if (count < 3)
        return misused("--limits is followed by four numbers, " LIMITS_WORDS, NULL);
    if (limits_parse(&limits, words[2], stderr))
        return run_words(&limits, count - 2, words + 2);
    usage(stderr);
    return FAILED;
}

int main(int count, char **words)
{
    if (count > 1 && strcmp(words[1], limits_option) == 0)
        return run_limited(count, words);
    return run_words(&largest_limits, count, words);
}
