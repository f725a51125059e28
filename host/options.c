#include "options.h"

#include <string.h>

static const struct option_words {
    const char *word;
    const char *value; /* what the file behind it is called, or NULL */
} words_of[OPTIONS] = {
    [FROM] = {"--from", "SHAPE"},
    [STEPS] = {"--steps", NULL},
    [FILES_FROM] = {"--files-from", "LIST"},
    [LINES] = {"--lines", NULL},
};

bool has_option(unsigned options, int option)
{
    return (options >> option & 1) != 0;
}

int option_named(const char *word)
{
    int option = 0;
    while (option < OPTIONS && strcmp(word, words_of[option].word) != 0)
        option++;
    return option;
}

bool is_option(const char *word)
{
    return word[0] == '-' && word[1] != '\0';
}

void option_say(FILE *to, int option)
{
    fputs(words_of[option].word, to);
    if (words_of[option].value != NULL)
        fprintf(to, " %s", words_of[option].value);
}

int options_take(unsigned options, const char **given, int count, char **words)
{
    int at = 0;
    while (at < count) {
        int option = option_named(words[at]);
        if (option == OPTIONS || !has_option(options, option) || given[option] != NULL)
            break;
        int value = words_of[option].value == NULL ? 0 : 1;
        if (value == 1 && (at + 1 == count || is_option(words[at + 1])))
            break;
        given[option] = words[at + value];
        at += 1 + value;
    }
    return at;
}
