/* Texts of about the lengths from which on a call holds longer work slices (docs/WORK-SLICES.md): answers are the same on both
   sides of each border, of texts that are read whole and of those that begin as many values as their bytes can. Short texts are
   tried with slices for few values first, and answered the same with as many and with more. */
#include <string.h>

#include "bounds.h"
#include "calls.h"
#include "check.h"
#include "draft.h"
#include "runvestol.h"
#include "suites.h"

enum { ABOUT = 2 }; /* this many bytes on both sides of a border */
enum { FEW = 32 };  /* this many values and forms are tried first */

static const size_t documents[] = {256, 384, 512, 4096}, shapes[] = {512, 768, 1024, 2048}, readers[] = {256, 384, 1024};

#define EACH(length, borders)                                          \
    for (size_t b = 0; b < sizeof borders / sizeof *borders; b++) \
        for (size_t length = borders[b] - ABOUT; length <= borders[b] + ABOUT; length++)

/* A record of such a member, so many bytes in all. */
static void put_record_of(struct draft *to, size_t name, size_t length)
{
    put_long_name(to, "{\"", name, "\":4");
    put_times(to, " ", length - to->length - 1);
    put(to, "}");
}

/* A reader that gives its document, so many bytes in all. */
static void put_keep_of(struct draft *to, size_t length)
{
    to->length = 0;
    put(to, "(keep (it 0))");
    put_times(to, " ", length - to->length);
}

/* As many values as so many bytes can begin: lists as deep as they may be, and numbers of one digit, left open. */
static void put_dense(struct draft *to, size_t length)
{
    to->length = 0;
    put_times(to, "[", LEVELS - 1);
    while (to->length < length)
        put(to, (length - to->length) % 2 == (length - (LEVELS - 1)) % 2 ? "1" : ",");
}

/* What is refused in it as a text: its end, or the 513th value. */
static struct outcome refused_as_dense(int text, size_t length)
{
    size_t place = LEVELS - 1 + 2 * (FORMS - (LEVELS - 1));
    if (length <= place)
        return (struct outcome){.number = RUNVESTOL_JSON_SYNTAX, .text = text, .place = length};
    return (struct outcome){.number = RUNVESTOL_VALUE_LIMIT, .text = text, .place = place};
}

static void shapes_with_documents_about_the_borders_are_joined(void)
{
    EACH(shape, shapes) {
        size_t name = put_shape_of(&first, shape);
        EACH(document, documents) {
            if (document < name + strlen("{\"\":4}"))
                continue;
            put_record_of(&second, name, document);
            put_written_name(name);
            expect_result("infer", drafted(&first), drafted(&second));
            expect_verdict("admits", drafted(&first), drafted(&second), true);
        }
    }
}

static void two_shapes_about_the_borders_are_joined(void)
{
    EACH(length, shapes) {
        size_t name = put_shape_of(&first, length);
        EACH(other, shapes) {
            put_shape_of(&second, other);
            expect_verdict("below", drafted(&first), drafted(&second), length == other);
            put_written_name(name);
            if (length == other)
                expect_result("join", drafted(&first), drafted(&second));
        }
    }
}

static void readers_with_shapes_about_the_borders_are_checked(void)
{
    EACH(reader, readers) {
        put_keep_of(&first, reader);
        EACH(shape, shapes) {
            put_written_name(put_shape_of(&second, shape));
            expect_result("check", drafted(&first), drafted(&second));
        }
    }
}

static void dense_documents_about_the_borders_are_refused_at_their_ends(void)
{
    EACH(document, documents) {
        struct outcome alone = refused_as_dense(1, document), behind = refused_as_dense(2, document);
        put_dense(&second, document);
        expect_call("plain", drafted(&second), bytes_of(""), &alone);
        EACH(shape, shapes) {
            put_shape_of(&first, shape);
            expect_call("infer", drafted(&first), drafted(&second), &behind);
            expect_call("admits", drafted(&first), drafted(&second), &behind);
        }
        EACH(reader, readers) {
            put_keep_of(&first, reader);
            expect_call("run", drafted(&first), drafted(&second), &behind);
        }
    }
}

/* A list of ones of so many values in all, so many bytes long, with that end. */
static void put_ones(struct draft *to, size_t values, size_t length, const char *end)
{
    to->length = 0;
    put(to, "[1");
    put_times(to, ",1", values - 2);
    put_times(to, " ", length - to->length - strlen(end));
    put(to, end);
}

static void expect_ones_read_in_all_calls(size_t values)
{
    struct bytes shape = bytes_of("(shape list (shape int))"), keep = bytes_of("(keep (it 0))");
    put_written_lists(2, "(shape int)");
    expect_result("infer", shape, drafted(&second));
    expect_result("infer", bytes_of("(shape)"), drafted(&second));
    expect_verdict("admits", shape, drafted(&second), true);
    expect_verdict("admits", bytes_of("(shape)"), drafted(&second), false);
    put_ones(&result, values, 2 * values - 1, "]");
    expect_result("plain", drafted(&second), bytes_of(""));
    struct outcome kept = {.length = result.length, .steps = 2, .written = drafted(&result)};
    expect_call("run", keep, drafted(&second), &kept);
}

static void short_documents_of_few_values_and_more_are_read(void)
{
    EACH(length, documents)
        for (size_t values = FEW - 1; values <= FEW + 1; values++) {
            put_ones(&second, values, length, "]");
            expect_ones_read_in_all_calls(values);
        }
}

static void short_documents_of_few_values_and_more_are_refused_at_their_ends(void)
{
    EACH(length, documents)
        for (size_t values = FEW - 1; values <= FEW + 1; values++) {
            put_ones(&second, values, length, "");
            struct outcome alone = {.number = RUNVESTOL_JSON_SYNTAX, .text = 1, .place = length};
            struct outcome behind = {.number = RUNVESTOL_JSON_SYNTAX, .text = 2, .place = length};
            expect_call("plain", drafted(&second), bytes_of(""), &alone);
            expect_call("infer", bytes_of("(shape)"), drafted(&second), &behind);
            expect_call("admits", bytes_of("(shape)"), drafted(&second), &behind);
            expect_call("run", bytes_of("(keep (it 0))"), drafted(&second), &behind);
        }
}

/* A shape of bool and a record, so many forms in all: each member has a name of one letter and that shape, with these bytes
   in front of the member and of its shape. */
static void put_letters(struct draft *to, size_t forms, const char *line, const char *further, const char *shape)
{
    to->length = 0;
    put(to, "(shape bool rec");
    for (size_t i = 0; i + 1 < forms; i++) {
        char name[] = {i < 26 ? (char)('A' + i) : (char)('a' + i - 26), 0};
        const char *parts[] = {line, "(member \"", name, "\"", further, shape, ")"};
        for (size_t k = 0; k < sizeof parts / sizeof *parts; k++)
            put(to, parts[k]);
    }
    put(to, ")");
}

static void short_shapes_of_few_forms_and_more_are_read(void)
{
    for (size_t forms = FEW - 1; forms <= FEW + 1; forms++) {
        put_letters(&first, forms, "", "", "(shape)");
        put_letters(&result, forms, "\n ", "\n  ", "(shape null)");
        put(&result, "\n");
        expect_result("infer", drafted(&first), bytes_of("{}"));
        expect_verdict("admits", drafted(&first), bytes_of("true"), true);
        expect_verdict("admits", drafted(&first), bytes_of("{}"), false);
    }
}

void tiers_suite(void)
{
    RUN(shapes_with_documents_about_the_borders_are_joined);
    RUN(two_shapes_about_the_borders_are_joined);
    RUN(readers_with_shapes_about_the_borders_are_checked);
    RUN(dense_documents_about_the_borders_are_refused_at_their_ends);
    RUN(short_documents_of_few_values_and_more_are_read);
    RUN(short_documents_of_few_values_and_more_are_refused_at_their_ends);
    RUN(short_shapes_of_few_forms_and_more_are_read);
}
