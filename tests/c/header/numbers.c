/* The numbers never change: each name is held to its number. It compiles or it does not. */
#include "runvestol.h"

#define IS(name, number) _Static_assert(RUNVESTOL_##name == (number), #name " is " #number)

IS(OK, 0);
IS(ANSWER_TOO_SHORT, 1);
IS(TEXT_TOO_LONG, 2);
IS(JSON_SYNTAX, 3);
IS(NUMBER_LIMIT, 4);
IS(DUPLICATE_NAME, 5);
IS(VALUE_LIMIT, 6);
IS(FORM_SYNTAX, 7);
IS(FORM_LIMIT, 8);
IS(UNWANTED_KIND, 9);
IS(UNLISTED_NAME, 10);
IS(SHAPE_LIMIT, 11);
IS(STUCK, 12);
IS(STEP_LIMIT, 13);
IS(RESULT_LIMIT, 14);
IS(OUTPUT_TOO_SHORT, 15);
IS(LIMIT_OUT_OF_RANGE, 18);

IS(TEXT_AT, 0);
IS(PLACE_AT, 8);
IS(LENGTH_AT, 16);
IS(STEPS_AT, 24);
IS(YES_AT, 32);
IS(ANSWER_BYTES, 40);

IS(LEAST_BYTES, 1024);
IS(MOST_BYTES, 16384);
IS(LEAST_VALUES, 16);
IS(MOST_VALUES, 512);
IS(LEAST_NESTING, 4);
IS(MOST_NESTING, 32);
IS(LEAST_STEPS, 256);
IS(MOST_STEPS, 65536);

int main(void)
{
    return 0;
}
