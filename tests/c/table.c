#include "table.h"

#include "check.h"

static void run_table_case(const struct table_case *c)
{
    const struct bytes texts[] = {bytes_of(c->texts[0]), bytes_of(c->texts[1])};
    struct outcome expected = {.number = c->number, .text = c->text, .place = c->place, .steps = c->steps, .yes = c->yes};
    if (c->written != NULL) {
        expected.written = bytes_of(c->written);
        expected.length = expected.written.length;
    }
    case_begin(c->name);
    expect_of_texts(operation_named(c->operation), texts, expected.length, &expected);
    case_end();
}

void run_table(const struct table_case *cases, size_t count)
{
    for (size_t i = 0; i < count; i++)
        run_table_case(&cases[i]);
}
