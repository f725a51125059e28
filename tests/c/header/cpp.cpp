// The header stands alone in C++, and its calls have C's names there.
#include "runvestol.h"

int main()
{
    const uint8_t document[] = {'7'}, shape[] = {'(', 's', 'h', 'a', 'p', 'e', ')'}, reader[] = {'(', 'n', 'o', ')'};
    uint8_t output[1], answer[RUNVESTOL_ANSWER_BYTES];
    const uint64_t number = runvestol_plain(RUNVESTOL_LARGEST, document, sizeof document, output, sizeof output, answer, sizeof answer);
    const size_t length = sizeof shape;
    const uint64_t short_output = RUNVESTOL_OUTPUT_TOO_SHORT;
    const bool known = runvestol_infer(RUNVESTOL_LARGEST, shape, length, document, 1, 0, 0, answer, sizeof answer) == short_output
        && runvestol_join(RUNVESTOL_LARGEST, shape, length, shape, length, 0, 0, answer, sizeof answer) == short_output
        && runvestol_below(RUNVESTOL_LARGEST, shape, length, shape, length, answer, sizeof answer) == RUNVESTOL_OK
        && runvestol_admits(RUNVESTOL_LARGEST, shape, length, document, 1, answer, sizeof answer) == RUNVESTOL_OK
        && runvestol_check(RUNVESTOL_LARGEST, reader, sizeof reader, shape, length, 0, 0, answer, sizeof answer) == short_output
        && runvestol_run(RUNVESTOL_LARGEST, reader, sizeof reader, document, 1, 0, 0, answer, sizeof answer) == short_output;
    const bool worded = runvestol_message(number)[0] == 'd' && runvestol_message(short_output)[0] == 't';
    return known && worded && number == RUNVESTOL_OK && output[0] == '7' ? 0 : 1;
}
