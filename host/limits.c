#include "limits.h"

#include <inttypes.h>
#include <string.h>

#include "runvestol.h"

const struct limits largest_limits = {RUNVESTOL_LARGEST};

/* The numbers of a set in their order. */
static const struct range {
    const char *name;
    uint64_t least, most;
} ranges[] = {
    {"BYTES", RUNVESTOL_LEAST_BYTES, RUNVESTOL_MOST_BYTES},
    {"VALUES", RUNVESTOL_LEAST_VALUES, RUNVESTOL_MOST_VALUES},
    {"NESTING", RUNVESTOL_LEAST_NESTING, RUNVESTOL_MOST_NESTING},
    {"STEPS", RUNVESTOL_LEAST_STEPS, RUNVESTOL_MOST_STEPS},
};

enum { RANGES = sizeof ranges / sizeof *ranges };

/* Reads so many digits. A number beyond every range stays beyond, however long it is. */
static bool parse_number(const char *digits, size_t length, uint64_t *number)
{
    *number = 0;
    for (size_t i = 0; i < length; i++) {
        if (digits[i] < '0' || digits[i] > '9')
            return false;
        if (*number <= RUNVESTOL_MOST_STEPS)
            *number = *number * 10 + (uint64_t)(digits[i] - '0');
    }
    return length > 0;
}

static bool parse_in_range(const struct range *range, const char *digits, size_t length, uint64_t *number, FILE *wrong)
{
    char least[NUMBER_WORDS], most[NUMBER_WORDS];
    if (parse_number(digits, length, number) && *number >= range->least && *number <= range->most)
        return true;
    fprintf(wrong, "runvestol: --limits: %s has to be a number from %s to %s: %.*s\n", range->name,
            number_in_words(least, range->least), number_in_words(most, range->most), (int)length, digits);
    return false;
}

bool limits_parse(struct limits *limits, const char *words, FILE *wrong)
{
    uint64_t numbers[RANGES];
    int commas = 0;
    for (const char *at = words; *at != '\0'; at++)
        commas += *at == ',';
    if (commas != RANGES - 1) {
        fprintf(wrong, "runvestol: --limits is followed by four numbers, " LIMITS_WORDS ": %s\n", words);
        return false;
    }
    for (int i = 0; i < RANGES; i++) {
        size_t length = strcspn(words, ",");
        if (!parse_in_range(&ranges[i], words, length, &numbers[i], wrong))
            return false;
        words += length + 1;
    }
    *limits = (struct limits){numbers[0], numbers[1], numbers[2], numbers[3]};
    return true;
}

const char *number_in_words(char *room, uint64_t number)
{
    uint64_t unit = 1;
    while (number / unit >= 1000)
        unit *= 1000;
    int length = snprintf(room, NUMBER_WORDS, "%" PRIu64, number / unit);
    for (; unit > 1; unit /= 1000)
        length += snprintf(room + length, NUMBER_WORDS - (size_t)length, ",%03" PRIu64, number % unit / (unit / 1000));
    return room;
}

const char *place_in_words(char *room, uint64_t number)
{
    static const char *const ends[] = {"th", "st", "nd", "rd"};
    uint64_t last = number % 10, last_two = number % 100;
    bool is_plain = last > 3 || (last_two > 10 && last_two < 14);
    snprintf(room, NUMBER_WORDS, "%" PRIu64 "%s", number, ends[is_plain ? 0 : last]);
    return room;
}
