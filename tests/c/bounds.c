#include "bounds.h"

#include <string.h>

#include "right.h"

struct draft first, second, result;

void expect_call(const char *operation, struct bytes text_1, struct bytes text_2, const struct outcome *expected)
{
    const struct bytes texts[] = {text_1, text_2};
    expect_of_texts(operation_named(operation), texts, expected->length, expected);
}

void expect_verdict(const char *operation, struct bytes text_1, struct bytes text_2, bool yes)
{
    const struct outcome expected = {.yes = yes};
    expect_call(operation, text_1, text_2, &expected);
}

void expect_result(const char *operation, struct bytes text_1, struct bytes text_2)
{
    const struct bytes texts[] = {text_1, text_2};
    const struct outcome done = {.length = result.length, .written = drafted(&result)};
    const struct outcome too_short = {.number = RUNVESTOL_OUTPUT_TOO_SHORT, .length = result.length};
    expect_call(operation, text_1, text_2, &done);
    expect_of_texts(operation_named(operation), texts, result.length - 1, &too_short);
}

void expect_too_large(const char *operation, struct bytes text_1, struct bytes text_2)
{
    const struct bytes texts[] = {text_1, text_2};
    const struct outcome too_large = {.number = RUNVESTOL_SHAPE_LIMIT};
    expect_of_texts(operation_named(operation), texts, 0, &too_large);
    expect_of_texts(operation_named(operation), texts, BYTES_MOST + 100, &too_large);
}

void expect_text_refused(enum text_kind kind, struct bytes text, uint64_t number, size_t place)
{
    for (size_t i = 0; i < operation_count; i++) {
        const struct right_call *right = right_call_of(&operations[i]);
        for (int which = 0; which < text_count(&operations[i]); which++) {
            struct bytes texts[] = {right->texts[0], right->texts[1]};
            const struct outcome refused = {.number = number, .text = (uint64_t)which + 1, .place = place};
            if (operations[i].texts[which] != kind)
                continue;
            texts[which] = text;
            expect_of_texts(&operations[i], texts, 0, &refused);
        }
    }
}

size_t put_members(struct draft *to, size_t from, size_t end, size_t step, const char *shape)
{
    size_t last = 0;
    to->length = 0;
    put(to, "(shape rec");
    for (size_t i = from; i < end; i += step) {
        put(to, " (member \"");
        put_number(to, i, 3);
        put(to, "\" ");
        last = to->length;
        put(to, shape);
        put(to, ")");
    }
    put(to, ")");
    return last;
}

void put_written_members(size_t count, const char *shape)
{
    result.length = 0;
    put(&result, "(shape rec");
    for (size_t i = 0; i < count; i++) {
        put(&result, "\n (member \"");
        put_number(&result, i, 3);
        put(&result, "\"\n  ");
        put(&result, shape);
        put(&result, ")");
    }
    put(&result, ")\n");
}

void put_lists(struct draft *to, size_t levels)
{
    to->length = 0;
    put_times(to, "(shape list ", levels - 1);
    put(to, "(shape)");
    put_times(to, ")", levels - 1);
}

void put_written_lists(size_t levels, const char *innermost)
{
    result.length = 0;
    for (size_t i = 1; i < levels; i++) {
        put(&result, "(shape list\n");
        put_times(&result, " ", i);
    }
    put(&result, innermost);
    put_times(&result, ")", levels - 1);
    put(&result, "\n");
}

void put_long_name(struct draft *to, const char *front, size_t name, const char *back)
{
    to->length = 0;
    put(to, front);
    put_times(to, "a", name);
    put(to, back);
}

size_t put_shape_of(struct draft *to, size_t length)
{
    static const char front[] = "(shape rec(member\"", back[] = "\"(shape int)))";
    size_t name = length - strlen(front) - strlen(back);
    put_long_name(to, front, name, back);
    return name;
}

size_t put_written_name(size_t name)
{
    put_long_name(&result, "(shape rec\n (member \"", name, "\"\n  (shape int)))\n");
    return result.length;
}

size_t longest_name(void)
{
    return BYTES_MOST - put_written_name(0);
}

size_t put_pack(struct draft *to, size_t count, const char *part)
{
    size_t last = 0;
    to->length = 0;
    put(to, "(pack");
    for (size_t i = 0; i < count; i++) {
        put(to, " \"");
        put_number(to, i, 3);
        put(to, "\" ");
        last = to->length;
        put(to, part);
    }
    put(to, ")");
    return last;
}

void put_packs(struct draft *to, size_t levels, const char *innermost)
{
    to->length = 0;
    put_times(to, "(pack \"a\" ", levels);
    put(to, innermost);
    put_times(to, ")", levels);
}

size_t put_full_reader(struct draft *to)
{
    put_pack(to, FORMS - 2, "(yes)");
    to->length--;
    put(to, " \"510\" (str \"");
    size_t text = BYTES_MOST - to->length - strlen("\"))");
    put_times(to, "b", text);
    put(to, "\"))");
    return text;
}
