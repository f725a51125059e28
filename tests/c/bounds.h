/* Texts and results at their limits, and calls held to them. */
#ifndef BOUNDS_H
#define BOUNDS_H

#include "calls.h"
#include "draft.h"
#include "runvestol.h"

enum { FORMS = 512, LEVELS = 32, BYTES_MOST = RUNVESTOL_MOST_BYTES };

/* The texts under way, and what is to be written. */
extern struct draft first, second, result;

void expect_call(const char *operation, struct bytes text_1, struct bytes text_2, const struct outcome *expected);

/* Expects yes or no. */
void expect_verdict(const char *operation, struct bytes text_1, struct bytes text_2, bool yes);

/* Expects the result to be written, and refused where the output is one byte short. */
void expect_result(const char *operation, struct bytes text_1, struct bytes text_2);

/* 11 goes before 15: it is refused with every output. */
void expect_too_large(const char *operation, struct bytes text_1, struct bytes text_2);

/* Expects a refusal of a text of that kind wherever a call takes one. */
void expect_text_refused(enum text_kind kind, struct bytes text, uint64_t number, size_t place);

/* A record's shape whose members are the numbers from one on, each a step on, up to an end. Gives its last bracket. */
size_t put_members(struct draft *to, size_t from, size_t end, size_t step, const char *shape);

/* The result: the same members as they are written. */
void put_written_members(size_t count, const char *shape);

/* A shape nested in lists to so many levels; the result: the same as it is written. */
void put_lists(struct draft *to, size_t levels);
void put_written_lists(size_t levels, const char *innermost);

/* A name of so many bytes between others. */
void put_long_name(struct draft *to, const char *front, size_t name, const char *back);

/* A record's shape with one member of a long name, so many bytes in all. Gives how long the name is. */
size_t put_shape_of(struct draft *to, size_t length);

/* The result: that shape, of a name of so many bytes, as it is written. Gives how long the result is. */
size_t put_written_name(size_t name);

/* How long a name is in the longest shape of one name that is written. */
size_t longest_name(void);

/* A reader: a pack of so many members, whose names are the numbers from 0 on. Gives its last part's bracket. */
size_t put_pack(struct draft *to, size_t count, const char *part);

/* A reader: so many packs of one member in each other around a form. */
void put_packs(struct draft *to, size_t levels, const char *innermost);

/* A reader of as many forms and bytes as may be: a pack of (yes) and, as 510, of a text. Gives how long that text is. */
size_t put_full_reader(struct draft *to);

#endif
