/* Texts about as long as the limit, and far beyond it. */
#include <stdio.h>
#include <stdlib.h>
#include <string.h>

#include "calls.h"
#include "check.h"
#include "right.h"
#include "runvestol.h"
#include "suites.h"

enum { LIMIT = RUNVESTOL_MOST_BYTES, MILLIONS = 5000000 };

static uint8_t *filled(size_t length, uint8_t byte)
{
    uint8_t *text = malloc(length);
    if (text == NULL) {
        perror("a long text");
        exit(1);
    }
    return memset(text, byte, length);
}

/* ---- every text of every call */

/* Runs on each text of each operation. */
static void for_each_text(void (*run)(const struct operation *operation, int text))
{
    for (size_t i = 0; i < operation_count; i++)
        for (int text = 0; text < text_count(&operations[i]); text++)
            run(&operations[i], text);
}

/* Holds the right call to an outcome with another text in the place of one. */
static void expect_with_text(const struct operation *operation, int text, struct bytes other,
                             const struct outcome *expected)
{
    const struct right_call *right = right_call_of(operation);
    struct bytes texts[] = {right->texts[0], right->texts[1]};
    texts[text] = other;
    expect_of_texts(operation, texts, right->outcome.length, expected);
}

/* The right text behind white space, as long as a text may be: it is read, and so is a wrong last byte. */
static void expect_read_to_the_end(const struct operation *operation, int text)
{
    const struct right_call *right = right_call_of(operation);
    const struct bytes given = right->texts[text];
    struct outcome broken = refused_as_broken(operation, text);
    uint8_t *long_text = filled(LIMIT, ' ');
    broken.place = LIMIT - 1;
    memcpy(long_text + LIMIT - 1 - given.length, given.at, given.length);
    expect_with_text(operation, text, (struct bytes){long_text, LIMIT}, &right->outcome);
    long_text[LIMIT - 1] = '?';
    expect_with_text(operation, text, (struct bytes){long_text, LIMIT}, &broken);
    free(long_text);
}

static void a_text_of_16384_bytes_is_read_to_its_last_byte(void)
{
    for_each_text(expect_read_to_the_end);
}

static void expect_blank_as_empty(const struct operation *operation, int text)
{
    struct outcome expected = outcome_of_empty(operation, text);
    uint8_t *blank = filled(LIMIT, ' ');
    if (expected.number != RUNVESTOL_OK)
        expected.place = LIMIT;
    expect_with_text(operation, text, (struct bytes){blank, LIMIT}, &expected);
    free(blank);
}

static void a_blank_text_of_16384_bytes_is_as_an_empty_one_but_for_its_end(void)
{
    for_each_text(expect_blank_as_empty);
}

static void expect_too_long(const struct operation *operation, int text)
{
    const struct outcome too_long = {.number = RUNVESTOL_TEXT_TOO_LONG, .text = (uint64_t)text + 1};
    const struct bytes given = right_call_of(operation)->texts[text];
    uint8_t *long_text = filled(LIMIT + 1, ' ');
    const struct bytes bytes = {long_text, LIMIT + 1};
    expect_with_text(operation, text, bytes, &too_long);
    memcpy(long_text, given.at, given.length);
    expect_with_text(operation, text, bytes, &too_long);
    memset(long_text, 0xFF, LIMIT + 1);
    expect_with_text(operation, text, bytes, &too_long);
    free(long_text);
}

static void a_text_of_16385_bytes_is_refused_whatever_it_holds(void)
{
    for_each_text(expect_too_long);
}

static void expect_far_too_long(const struct operation *operation, int text)
{
    const struct outcome too_long = {.number = RUNVESTOL_TEXT_TOO_LONG, .text = (uint64_t)text + 1};
    uint8_t *long_text = filled(MILLIONS, operation->texts[text] == DOCUMENT ? '[' : '(');
    expect_with_text(operation, text, (struct bytes){long_text, MILLIONS}, &too_long);
    free(long_text);
}

static void a_text_of_several_million_bytes_is_refused(void)
{
    for_each_text(expect_far_too_long);
}

/* A first text that is wrong, however it is, goes before the length of the second; its own length before all. */
static void expect_first_text_judged_first(const struct operation *operation)
{
    const struct outcome broken = refused_as_broken(operation, 0);
    const struct outcome too_long = {.number = RUNVESTOL_TEXT_TOO_LONG, .text = 1};
    uint8_t *long_text = filled(LIMIT + 1, ' ');
    const struct bytes bytes = {long_text, LIMIT + 1};
    expect_of_texts(operation, (const struct bytes[]){broken_text(operation, 0), bytes}, 9, &broken);
    expect_of_texts(operation, (const struct bytes[]){bytes, bytes}, 9, &too_long);
    expect_of_texts(operation, (const struct bytes[]){bytes, broken_text(operation, 1)}, 9, &too_long);
    free(long_text);
}

static void a_first_text_is_judged_whole_before_the_length_of_the_second(void)
{
    for (size_t i = 0; i < operation_count; i++)
        if (text_count(&operations[i]) > 1)
            expect_first_text_judged_first(&operations[i]);
}

static void an_output_of_several_million_bytes_keeps_all_behind_its_front(void)
{
    for (size_t i = 0; i < operation_count; i++) {
        const struct right_call *right = right_call_of(&operations[i]);
        expect_of_texts(&operations[i], right->texts, MILLIONS, &right->outcome);
    }
}

/* ---- plain */

static void expect_plain(const uint8_t *document, size_t length, size_t output, const struct outcome *expected)
{
    const struct bytes text = {document, length};
    expect_of_texts(operation_named("plain"), &text, output, expected);
}

static void a_quoted_text_of_16384_bytes_is_written_whole(void)
{
    uint8_t *text = filled(LIMIT, 'a');
    const struct outcome done = {.length = LIMIT, .written = {text, LIMIT}};
    const struct outcome too_short = {.number = RUNVESTOL_OUTPUT_TOO_SHORT, .length = LIMIT};
    text[0] = text[LIMIT - 1] = '"';
    expect_plain(text, LIMIT, LIMIT, &done);
    expect_plain(text, LIMIT, LIMIT + 1, &done);
    expect_plain(text, LIMIT, LIMIT - 1, &too_short);
    free(text);
}

/* A list of ones: its text, and how long it is. */
static size_t ones(uint8_t *text, size_t count)
{
    for (size_t i = 0; i < count; i++) {
        text[2 * i] = i == 0 ? '[' : ',';
        text[2 * i + 1] = '1';
    }
    text[2 * count] = ']';
    return 2 * count + 1;
}

static void the_513th_value_is_refused_at_its_first_byte(void)
{
    uint8_t text[2 * 513 + 1];
    size_t length = ones(text, 511);
    const struct outcome done = {.length = length, .written = {text, length}};
    const struct outcome refused = {.number = RUNVESTOL_VALUE_LIMIT, .text = 1, .place = 2 * 511 + 1};
    expect_plain(text, length, length, &done);
    length = ones(text, 512);
    expect_plain(text, length, length, &refused);
}

/* A list of ones through each call that takes a document; white space behind it makes its length even. */
static void expect_ones_read(struct bytes document, size_t spaces)
{
    static const struct bytes shape = BYTES("(shape list\n (shape int))\n"), nothing = BYTES("(shape)");
    const struct bytes given = {document.at, document.length + spaces};
    const struct outcome rewritten = {.length = document.length, .written = document};
    const struct outcome inferred = {.length = shape.length, .written = shape}, admitted = {.yes = 1};
    expect_plain(given.at, given.length, document.length, &rewritten);
    expect_of_texts(operation_named("infer"), (const struct bytes[]){nothing, given}, shape.length, &inferred);
    expect_of_texts(operation_named("admits"), (const struct bytes[]){shape, given}, 0, &admitted);
}

/* A call may have other work slices for short texts: each length comes with as many values as it has room for. */
static void documents_of_every_length_up_to_600_bytes_are_read(void)
{
    uint8_t text[2 * 300 + 2];
    for (size_t count = 1; count < 300; count++) {
        size_t length = ones(text, count);
        text[length] = ' ';
        expect_ones_read((struct bytes){text, length}, 0);
        expect_ones_read((struct bytes){text, length}, 1);
    }
}

void sizes_suite(void)
{
    RUN(documents_of_every_length_up_to_600_bytes_are_read);
    RUN(a_text_of_16384_bytes_is_read_to_its_last_byte);
    RUN(a_blank_text_of_16384_bytes_is_as_an_empty_one_but_for_its_end);
    RUN(a_text_of_16385_bytes_is_refused_whatever_it_holds);
    RUN(a_text_of_several_million_bytes_is_refused);
    RUN(a_first_text_is_judged_whole_before_the_length_of_the_second);
    RUN(an_output_of_several_million_bytes_keeps_all_behind_its_front);
    RUN(a_quoted_text_of_16384_bytes_is_written_whole);
    RUN(the_513th_value_is_refused_at_its_first_byte);
}
