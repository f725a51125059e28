#include "right.h"

#include <stdio.h>
#include <stdlib.h>
#include <string.h>

#include "runvestol.h"

#define WRITES(literal) {.length = sizeof(literal) - 1, .written = BYTES(literal)}
#define SAYS_YES {.yes = 1}

static const struct right_call calls[] = {
    {"plain", {BYTES(" {\"laps\": [4, 4.5, null, -0]} ")}, WRITES("{\"laps\":[4,4.5,null,0]}")},
    {"infer", {BYTES("(shape null)"), BYTES("[4, 4.5]")}, WRITES("(shape null list\n (shape int dec))\n")},
    {"join", {BYTES("(shape text)"), BYTES("(shape int)")}, WRITES("(shape int text)\n")},
    {"below", {BYTES("(shape int)"), BYTES("(shape int text)")}, SAYS_YES},
    {"admits", {BYTES("(shape list (shape int dec))"), BYTES("[4, 4.5]")}, SAYS_YES},
    {"check", {BYTES("(each (it 0) (dec (it 0)))"), BYTES("(shape null list (shape int))")},
     WRITES("(shape list\n (shape int dec))\n")},
    {"run", {BYTES("(each (it 0) (when null (it 0) (num 0) (dec (it 0))))"), BYTES("[4, 4.50, null]")},
     {.length = 10, .steps = 13, .written = BYTES("[4,4.50,0]")}},
};

const struct right_call *right_call_of(const struct operation *operation)
{
    for (size_t i = 0; i < sizeof calls / sizeof *calls; i++)
        if (strcmp(operation->name, calls[i].operation) == 0)
            return &calls[i];
    printf("no right call of %s\n", operation->name);
    exit(1);
}

static struct outcome refused_at(const struct operation *operation, int text, uint64_t place)
{
    uint64_t number = operation->texts[text] == DOCUMENT ? RUNVESTOL_JSON_SYNTAX : RUNVESTOL_FORM_SYNTAX;
    return (struct outcome){.number = number, .text = (uint64_t)text + 1, .place = place};
}

struct outcome outcome_of_empty(const struct operation *operation, int text)
{
    static const struct outcome shape = WRITES("(shape null)\n"), value = {.length = 4, .steps = 1, .written = BYTES("null")};
    if (operation->texts[text] != READER)
        return refused_at(operation, text, 0);
    return strcmp(operation->name, "check") == 0 ? shape : value;
}

struct bytes broken_text(const struct operation *operation, int text)
{
    return bytes_of(operation->texts[text] == DOCUMENT ? "[1?" : "( ?");
}

struct outcome refused_as_broken(const struct operation *operation, int text)
{
    return refused_at(operation, text, 2);
}
