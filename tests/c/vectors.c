#define _POSIX_C_SOURCE 200809L
#include "vectors.h"

#include <errno.h>
#include <inttypes.h>
#include <stdio.h>
#include <stdlib.h>
#include <string.h>
#include <sys/types.h>

#include "calls.h"
#include "check.h"
#include "runvestol.h"

/* The columns, separated by tabs. A row may end behind what is written, which is at the largest set, or behind the set. */
enum { OPERATION, TEXT_1, TEXT_2, OUTPUT, NUMBER, TEXT, PLACE, LENGTH, STEPS, YES, WRITTEN, COLUMNS };
enum { SET_BYTES = COLUMNS, SET_VALUES, SET_NESTING, SET_STEPS, COLUMNS_WITH_SET, M = COLUMNS_WITH_SET, LENT, COLUMNS_WITH_LENT };

struct counts {
    int run, short_slices;
};

/* A row as it is read. */
struct row {
    const struct operation *operation;
    struct limits limits;
    struct bytes texts[2];
    uint64_t output;
    size_t answer;
    bool has_short_slices;
    struct outcome expected;
};

/* Cuts a line into its columns; gives how many there are. */
static int cut(char *line, char **columns, int most)
{
    int count = 0;
    line[strcspn(line, "\r\n")] = '\0';
    for (char *at = line; at != NULL && count < most; count++) {
        columns[count] = at;
        at = strchr(at, '\t');
        if (at != NULL)
            *at++ = '\0';
    }
    return count;
}

static int digit(char c)
{
    const char *digits = "0123456789abcdef", *found = strchr(digits, c);
    return found != NULL && c != '\0' ? (int)(found - digits) : -1;
}

/* The bytes of a column in hexadecimal, - being none; put over the column itself. */
static bool from_hex(char *column, struct bytes *bytes)
{
    size_t length = strcmp(column, "-") == 0 ? 0 : strlen(column);
    uint8_t *to = (uint8_t *)column;
    for (size_t i = 0; i + 1 < length; i += 2) {
        int high = digit(column[i]), low = digit(column[i + 1]);
        if (high < 0 || low < 0)
            return false;
        to[i / 2] = (uint8_t)(high * 16 + low);
    }
    *bytes = (struct bytes){to, length / 2};
    return length % 2 == 0;
}

static bool from_decimal(const char *column, uint64_t *number)
{
    char *end;
    errno = 0;
    *number = strtoull(column, &end, 10);
    return *column >= '0' && *column <= '9' && *end == '\0' && errno == 0;
}

static bool outcome_of(char **columns, struct outcome *o)
{
    return from_decimal(columns[NUMBER], &o->number) && from_decimal(columns[TEXT], &o->text)
        && from_decimal(columns[PLACE], &o->place) && from_decimal(columns[LENGTH], &o->length)
        && from_decimal(columns[STEPS], &o->steps) && from_decimal(columns[YES], &o->yes)
        && from_hex(columns[WRITTEN], &o->written);
}

static bool limits_of(char **columns, int count, struct limits *limits)
{
    *limits = largest;
    return count == COLUMNS
        || (from_decimal(columns[SET_BYTES], &limits->bytes) && from_decimal(columns[SET_VALUES], &limits->values)
            && from_decimal(columns[SET_NESTING], &limits->nesting) && from_decimal(columns[SET_STEPS], &limits->steps));
}

/* What is lent besides the texts and the output. None of these operations has an m. Lending too little is 1 or 18. */
static bool lent_of(char **columns, int count, struct row *row)
{
    const char *lent = count == COLUMNS_WITH_LENT ? columns[LENT] : "-";
    uint64_t number = row->expected.number;
    bool has_short_answer = strcmp(lent, "answer39") == 0;
    row->has_short_slices = strcmp(lent, "short") == 0;
    row->answer = has_short_answer ? RUNVESTOL_ANSWER_BYTES - 1 : RUNVESTOL_ANSWER_BYTES;
    if (count == COLUMNS_WITH_LENT && strcmp(columns[M], "-") != 0)
        return false;
    if (row->has_short_slices || has_short_answer)
        return number == RUNVESTOL_ANSWER_TOO_SHORT || number == RUNVESTOL_LIMIT_OUT_OF_RANGE;
    return strcmp(lent, "-") == 0;
}

/* Whether the columns are a row, which is then read. */
static bool row_of(char **columns, int count, struct row *row)
{
    if (count != COLUMNS && count != COLUMNS_WITH_SET && count != COLUMNS_WITH_LENT)
        return false;
    row->operation = operation_named(columns[OPERATION]);
    return row->operation != NULL && from_hex(columns[TEXT_1], &row->texts[0]) && from_hex(columns[TEXT_2], &row->texts[1])
        && from_decimal(columns[OUTPUT], &row->output) && outcome_of(columns, &row->expected)
        && limits_of(columns, count, &row->limits) && lent_of(columns, count, row);
}

/* What is written fits an output exactly as long, and is refused one byte shorter, with nothing written. */
static void expect_exact_fit(const struct row *row)
{
    const struct outcome *o = &row->expected;
    const struct outcome refused = {.number = RUNVESTOL_OUTPUT_TOO_SHORT, .length = o->length};
    if (o->number != RUNVESTOL_OK || o->written.length == 0)
        return;
    expect_at(&row->limits, row->operation, row->texts, o->written.length, o);
    expect_at(&row->limits, row->operation, row->texts, o->written.length - 1, &refused);
}

static void run_row(const struct row *row)
{
    expect_with(&row->limits, row->operation, row->texts, row->output, row->answer, &row->expected);
    expect_exact_fit(row);
}

/* A call is lent no work slices, so none is too short here. Where 18 goes before that the row is run. */
static bool is_left_out(const struct row *row)
{
    return row->has_short_slices && row->expected.number == RUNVESTOL_ANSWER_TOO_SHORT;
}

static void run_line(const char *place, char *line, struct counts *counts)
{
    char *columns[COLUMNS_WITH_LENT + 1];
    int count = cut(line, columns, COLUMNS_WITH_LENT + 1);
    struct row row;
    bool is_row = row_of(columns, count, &row);
    if (is_row && is_left_out(&row)) {
        printf("%s: left out: a work slice is one word short\n", place);
        counts->short_slices++;
        return;
    }
    case_begin(place);
    EXPECT(is_row);
    if (is_row)
        run_row(&row);
    case_end();
    counts->run++;
}

static void run_lines(const char *path, FILE *file, struct counts *counts)
{
    char *line = NULL;
    size_t room = 0;
    for (int number = 1; getline(&line, &room, file) > 0; number++) {
        char place[4096];
        snprintf(place, sizeof place, "%s:%d", path, number);
        if (line[0] != '#' && line[0] != '\n')
            run_line(place, line, counts);
    }
    free(line);
}

void run_vectors(const char *path, int left_out)
{
    struct counts counts = {0, 0};
    FILE *file = fopen(path, "r");
    if (file != NULL) {
        run_lines(path, file, &counts);
        fclose(file);
    }
    printf("%s: %d rows run, %d left out\n", path, counts.run, counts.short_slices);
    case_begin(path);
    EXPECT(counts.run > 0);
    EXPECT(counts.short_slices == left_out);
    case_end();
}
