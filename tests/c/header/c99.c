/* The header stands alone, in C99 and with every warning. */
#include "runvestol.h"

#include <string.h>

/* Each call with a shape that has no kind: nothing admits nothing, and is below itself. */
static int shapes_are_known(void)
{
    static const uint8_t shape[] = "(shape)", document[] = "null";
    const size_t length = sizeof shape - 1;
    uint8_t output[20], answer[RUNVESTOL_ANSWER_BYTES];
    const size_t room = sizeof output, answer_room = sizeof answer;
    return runvestol_infer(RUNVESTOL_LARGEST, shape, length, document, 4, output, room, answer, answer_room) == RUNVESTOL_OK
        && answer[RUNVESTOL_LENGTH_AT] == sizeof "(shape null)\n" - 1
        && runvestol_join(RUNVESTOL_LARGEST, shape, length, shape, length, output, room, answer, answer_room) == RUNVESTOL_OK
        && answer[RUNVESTOL_LENGTH_AT] == sizeof "(shape)\n" - 1
        && runvestol_below(RUNVESTOL_LARGEST, shape, length, shape, length, answer, answer_room) == RUNVESTOL_OK
        && answer[RUNVESTOL_YES_AT] == 1
        && runvestol_admits(RUNVESTOL_LARGEST, shape, length, document, 4, answer, answer_room) == RUNVESTOL_OK
        && answer[RUNVESTOL_YES_AT] == 0;
}

/* A reader that keeps what it is given has the shape that it is checked against, and gives that back. */
static int readers_are_known(void)
{
    static const uint8_t reader[] = "(keep (it 0))", shape[] = "(shape null)";
    const size_t length = sizeof reader - 1, shape_length = sizeof shape - 1;
    uint8_t output[20], answer[RUNVESTOL_ANSWER_BYTES];
    return runvestol_check(RUNVESTOL_LARGEST, reader, length, shape, shape_length, output, sizeof output, answer, sizeof answer) == RUNVESTOL_OK
        && answer[RUNVESTOL_LENGTH_AT] == sizeof "(shape null)\n" - 1
        && runvestol_run(RUNVESTOL_LARGEST, reader, length, (const uint8_t *)"null", 4, output, sizeof output, answer, sizeof answer) == RUNVESTOL_OK
        && answer[RUNVESTOL_LENGTH_AT] == 4 && answer[RUNVESTOL_STEPS_AT] == 2;
}

/* The largest and the smallest set are accepted, and a number is refused that is in no range. */
static int sets_are_known(void)
{
    static const uint8_t document[] = "7";
    uint8_t output[1], answer[RUNVESTOL_ANSWER_BYTES];
    return runvestol_plain(RUNVESTOL_LARGEST, document, 1, output, 1, answer, sizeof answer) == RUNVESTOL_OK
        && output[0] == '7'
        && runvestol_plain(RUNVESTOL_SMALLEST, document, 1, output, 1, answer, sizeof answer) == RUNVESTOL_OK
        && runvestol_plain(RUNVESTOL_MOST_BYTES + 1, RUNVESTOL_MOST_VALUES, RUNVESTOL_MOST_NESTING, RUNVESTOL_MOST_STEPS,
                           document, 1, output, 1, answer, sizeof answer) == RUNVESTOL_LIMIT_OUT_OF_RANGE;
}

/* What any number that is not of the enum has for words; 16, 17 and 19 are the ones closest to it. */
static int other_numbers_have_words(void)
{
    static const uint64_t others[] = {16, 17, 19, 0xFFFFFFFF, 0x100000000, 0x100000003, UINT64_MAX};
    for (size_t i = 0; i < sizeof others / sizeof *others; i++)
        if (strcmp(runvestol_message(others[i]), "a number that this version does not know") != 0)
            return 0;
    return 1;
}

/* Every number of the enum has words of its own. */
static int numbers_have_words_of_their_own(void)
{
    for (uint64_t number = RUNVESTOL_OK; number <= RUNVESTOL_LIMIT_OUT_OF_RANGE; number++) {
        if (number == 16 || number == 17)
            continue;
        for (uint64_t other = number + 1; other <= RUNVESTOL_LIMIT_OUT_OF_RANGE + 1; other++)
            if (strcmp(runvestol_message(number), runvestol_message(other)) == 0)
                return 0;
        if (runvestol_message(number)[0] == '\0')
            return 0;
    }
    return 1;
}

int main(void)
{
    return sets_are_known() && shapes_are_known() && readers_are_known() && numbers_have_words_of_their_own()
            && other_numbers_have_words() ? 0 : 1;
}
