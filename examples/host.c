/*
 * What a console's host does: infers the shape of samples, checks a reader against it, and runs the reader on a record.
 *
 *     cc -o host host.c $(pkg-config --cflags --libs runvestol)
 *     ./host READER RECORD SAMPLE...
 *
 * Status: 0 done; 1 refused; 2 wrong usage, or a file that cannot be read or written.
 */
#include <runvestol.h>
#include <stdio.h>
#include <stdlib.h>

/* Room for a byte more than the library takes: a file that is too long is refused by the library. */
struct text { uint8_t bytes[RUNVESTOL_MOST_BYTES + 1]; size_t length; };
#define LEND(text) (text).bytes, (text).length

static void load(struct text *text, const char *name)
{
    FILE *file = fopen(name, "rb");
    text->length = file == NULL ? 0 : fread(text->bytes, 1, sizeof text->bytes, file);
    if (file == NULL || ferror(file)) {
        perror(name);
        exit(2);
    }
    fclose(file);
}

static size_t word(const uint8_t *answer, int at)
{
    size_t value = 0;
    for (int i = 7; i >= 0; i--)
        value = value << 8 | answer[at + i];
    return value;
}

/* Whether a call is done. What it refuses is told in words, with its place in the call's first or second text. */
static int done(const char *what, uint64_t number, const uint8_t *answer)
{
    if (number != RUNVESTOL_OK)
        fprintf(stderr, "%s: text %lu, byte %lu: %s\n", what, (unsigned long)word(answer, RUNVESTOL_TEXT_AT),
                (unsigned long)word(answer, RUNVESTOL_PLACE_AT), runvestol_message(number));
    return number == RUNVESTOL_OK;
}

int main(int count, char **words)
{
    static struct text reader, record, sample, shape = {"(shape)", 7}, written;
    uint8_t answer[RUNVESTOL_ANSWER_BYTES] = {0};
    if (count < 4) {
        fputs("usage: host READER RECORD SAMPLE...\n", stderr);
        return 2;
    }
    load(&reader, words[1]);
    load(&record, words[2]);
    for (int i = 3; i < count; i++) {
        load(&sample, words[i]);
        uint64_t number = runvestol_infer(RUNVESTOL_LARGEST, LEND(shape), LEND(sample), written.bytes, RUNVESTOL_MOST_BYTES,
                                          answer, sizeof answer);
        written.length = word(answer, RUNVESTOL_LENGTH_AT);
        if (done(words[i], number, answer)) /* a sample that is refused leaves the shape as it was */
            shape = written;
    }
    if (!done(words[1], runvestol_check(RUNVESTOL_LARGEST, LEND(reader), LEND(shape), written.bytes, RUNVESTOL_MOST_BYTES,
                                        answer, sizeof answer), answer))
        return 1;
    /* A result may be longer than any text. The first call has no output, and tells how long that has to be. */
    uint64_t number = runvestol_run(RUNVESTOL_LARGEST, LEND(reader), LEND(record), NULL, 0, answer, sizeof answer);
    size_t length = word(answer, RUNVESTOL_LENGTH_AT);
    uint8_t *result = number == RUNVESTOL_OUTPUT_TOO_SHORT ? (uint8_t *)malloc(length) : NULL;
    if (result != NULL)
        number = runvestol_run(RUNVESTOL_LARGEST, LEND(reader), LEND(record), result, length, answer, sizeof answer);
    if (!done(words[2], number, answer))
        return 1;
    int written_out = fwrite(result, 1, length, stdout) == length && putchar('\n') != EOF && fclose(stdout) == 0;
    free(result);
    return written_out ? 0 : 2;
}
