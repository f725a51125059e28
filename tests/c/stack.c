/* The stack that each call takes, measured, and a call where no more is left than the header asks for. */
#define _GNU_SOURCE
#include <alloca.h>
#include <limits.h>
#include <pthread.h>
#include <stdio.h>
#include <stdlib.h>
#include <string.h>

#include "calls.h"
#include "check.h"
#include "draft.h"
#include "runvestol.h"
#include "suites.h"

/* what a thread has on its stack besides: its start, its control block, and frames of the test */
enum { THREAD_BYTES = 128 * 1024 };
enum { PAINT = 0xA5 };

/* The call under way, its set and texts, and the deepest that was seen of its operation. */
static const struct operation *operation;
static struct limits limits;
static struct draft texts[2];
static size_t deepest;

/* ---- texts that go deep: each nests to the limit as a pattern says, [ or { a level, taken round and round */

static bool is_list(const char *pattern, size_t level)
{
    return pattern[level % strlen(pattern)] == '[';
}

static void put_document(struct draft *to, const char *pattern, const char *innermost)
{
    for (size_t i = 0; i + 1 < limits.nesting; i++)
        put(to, is_list(pattern, i) ? "[1, " : "{\"\\u0061\": 1, \"name\\n\": ");
    put(to, innermost);
    for (size_t i = limits.nesting - 1; i-- > 0;)
        put(to, is_list(pattern, i) ? " ]" : " }");
}

/* The shape of such a document, so that a call goes down both together. */
static void put_shape(struct draft *to, const char *pattern, const char *innermost)
{
    for (size_t i = 0; i + 1 < limits.nesting; i++) {
        put(to, i > 0 && is_list(pattern, i - 1) ? "(shape int " : "(shape ");
        put(to, is_list(pattern, i) ? "list " : "rec (member \"\\u0061\" (shape int)) (member \"name\\n\" ");
    }
    put(to, innermost);
    for (size_t i = limits.nesting - 1; i-- > 0;)
        put(to, is_list(pattern, i) ? " )" : " ) )");
}

static const char *const patterns[] = {"[", "{", "[{", "{[", "[[{", "{{["};

enum { PATTERNS = sizeof patterns / sizeof *patterns };

/* What each pattern puts around a reader's innermost form, level by level, how many levels of nesting that takes each time, and
   how many times are left out, for the forms within one; the first makes one place. With the last of the second text's values
   each goes with the next pattern's, which it goes down. */
static const struct {
    const char *open, *close;
    size_t takes, less;
} wrappers[PATTERNS] = {
    {"(field \"name\\n\" ", ")", 1, 2},
    {"(when null (field \"name\\n\" (it 0)) (none) ", ")", 1, 2},
    {"(pack \"\\u0061\" (no) \"name\\n\" ", ")", 1, 1},
    {"(when rec (it 0) ", " (keep (it 0)))", 1, 2},
    {"(if ", " (yes) (no))", 1, 1},
    {"(each (it 0) (when list (it 0) ", " (none)))", 2, 1},
};

static void put_reader(struct draft *to, size_t pattern, const char *innermost)
{
    size_t levels = limits.nesting / wrappers[pattern].takes - wrappers[pattern].less;
    bool is_place = pattern == 0;
    put(to, is_place ? "(keep " : "");
    put_times(to, wrappers[pattern].open, levels);
    put(to, is_place ? "(it 0)" : innermost);
    put_times(to, wrappers[pattern].close, levels);
    put(to, is_place ? ")" : "");
}

/* what a text's last value, shape or form is, right and wrong */
static const char *const innermost[][9] = {
    [DOCUMENT] = {"null", "-123456789.123456789", "\"\\ud83d\\ude00\\u0000\xE2\x82\xAC\"", "[]", "{}", "1e5",
                  "\"\\ud83d\\u0041\"", "[1]", "{\"\\ud83d\\ude00\": 1}"},
    [SHAPE] = {"(shape)", "(shape null bool int dec text rec)", "(shape rec (member \"\\ud83d\\ude00\" (shape)))",
               "(shape list (shape))", "(shape dec)", "(shape \"", "(", "(shape int)", "(shape int dec)"},
    [READER] = {"(yes)", "(num -123456789.123456789)", "(str \"\\ud83d\\ude00\\u0000\xE2\x82\xAC\")", "(none)", "(pack)", "(num 1e5)",
                "(str \"\\ud83d\\u0041\")", "(keep (it 0))", "(pack \"\\ud83d\\ude00\" (yes))"},
};

enum { INNERMOST = sizeof *innermost / sizeof **innermost };

static void put_text(int text, size_t pattern, size_t last)
{
    enum text_kind kind = operation->texts[text];
    texts[text].length = 0;
    if (kind == DOCUMENT)
        put_document(&texts[text], patterns[pattern], innermost[kind][last]);
    if (kind == SHAPE)
        put_shape(&texts[text], patterns[pattern], innermost[kind][last]);
    if (kind == READER)
        put_reader(&texts[text], pattern, innermost[kind][last]);
}

/* With spaces behind each text up to a length. */
static void run_padded(void (*run)(void), size_t length)
{
    for (int i = 0; i < text_count(operation); i++)
        put_times(&texts[i], " ", length - texts[i].length);
    run();
}

/* With the texts as they are, and as long as may be: a call may take less stack for short ones. Those that are too long for a
   small set are as long as others may be. */
static void run_short_and_long(void (*run)(void))
{
    run();
    run_padded(run, limits.bytes);
    if (limits.bytes < RUNVESTOL_MOST_BYTES)
        run_padded(run, RUNVESTOL_MOST_BYTES);
}

/* Texts of one pattern, and of two, with every last value of the one beside every one of the other. */
static void for_each_deep_call(void (*run)(void))
{
    size_t seconds = text_count(operation) < 2 ? 1 : INNERMOST;
    for (size_t i = 0; i < PATTERNS * INNERMOST; i++) {
        for (size_t j = 0; j < seconds; j++) {
            put_text(0, i % PATTERNS, i / PATTERNS);
            put_text(1, (i + (j == INNERMOST - 1)) % PATTERNS, j);
            run_short_and_long(run);
        }
    }
}

/* ---- a call on a thread whose stack ends at a wall */

/* What a call leaves. */
struct left {
    uint64_t number;
    uint8_t output[RUNVESTOL_MOST_BYTES], answer[RUNVESTOL_ANSWER_BYTES];
};

struct place {
    uint8_t *stack; /* its lowest byte */
    uint8_t *top;   /* where the caller's frame is, so that the call takes what lies below */
    struct left *left;
};

static struct left left_here, left_there;

/* What is lent, outside the stack that is measured. */
static struct loan loan;

static struct lent lent_text(struct draft *draft)
{
    return (struct lent){.bytes = draft->bytes, .length = draft->length};
}

static void lend_all(struct left *left)
{
    loan = (struct loan){
        .limits = limits,
        .texts = {lent_text(&texts[0]), lent_text(&texts[1])},
        .output = {.bytes = left->output, .length = sizeof left->output},
        .answer = {.bytes = left->answer, .length = sizeof left->answer},
    };
}

static void __attribute__((noinline)) call_from_here(struct place *place)
{
    place->top = __builtin_frame_address(0);
    place->left->number = operation->call(&loan);
}

/* Uses up the stack until what is left is just what the header asks for. */
static void *__attribute__((noinline)) call_where_little_is_left(void *argument)
{
    struct place *place = argument;
    catch_walls();
    uint8_t *here = __builtin_frame_address(0);
    size_t free_bytes = (size_t)(here - place->stack);
    volatile uint8_t *used_up = alloca(free_bytes - operation->stack);
    used_up[0] = 1;
    call_from_here(place);
    return NULL;
}

static void *call_freely(void *argument)
{
    call_from_here(argument);
    return NULL;
}

static size_t stack_size(void)
{
    size_t size = operation->stack + THREAD_BYTES;
    return whole_pages(size < (size_t)PTHREAD_STACK_MIN ? (size_t)PTHREAD_STACK_MIN : size);
}

static void run_thread(void *(*body)(void *), struct place *place, size_t size)
{
    pthread_attr_t attributes;
    pthread_t thread;
    pthread_attr_init(&attributes);
    int failed = pthread_attr_setstack(&attributes, place->stack, size);
    failed = failed || pthread_create(&thread, &attributes, body, place);
    EXPECT(!failed);
    if (!failed)
        pthread_join(thread, NULL);
    pthread_attr_destroy(&attributes);
}

/* How far below the caller's frame a call wrote. */
static size_t depth_of_call(void)
{
    size_t size = stack_size();
    struct place place = {map_walled(size), NULL, &left_there};
    memset(place.stack, PAINT, size);
    lend_all(place.left);
    run_thread(call_freely, &place, size);
    const uint8_t *lowest = place.stack;
    while (lowest < place.top && *lowest == PAINT)
        lowest++;
    size_t depth = (size_t)(place.top - lowest);
    unmap_walled(place.stack, size);
    return depth;
}

static void measure(void)
{
    size_t depth = depth_of_call();
    deepest = depth > deepest ? depth : deepest;
}

/* The header asks for enough, and for no more than twice what the call takes. */
static void a_call_takes_about_the_stack_that_the_header_says(void)
{
    deepest = 0;
    limits = largest;
    for_each_deep_call(measure);
    printf("the deepest stack of %s: %zu bytes; the header asks for %zu\n", operation->name, deepest, operation->stack);
    EXPECT(deepest <= operation->stack);
    EXPECT(2 * deepest >= operation->stack);
}

/* The most of all calls at the smallest set. */
static void calls_take_about_the_stack_that_the_header_says_for_the_smallest_set(void)
{
    size_t most = 0;
    limits = smallest;
    for (size_t i = 0; i < operation_count; i++) {
        operation = &operations[i];
        deepest = 0;
        for_each_deep_call(measure);
        printf("the deepest stack of %s at the smallest set: %zu bytes\n", operation->name, deepest);
        most = deepest > most ? deepest : most;
    }
    EXPECT(most <= RUNVESTOL_SMALLEST_STACK_BYTES);
    EXPECT(2 * most >= RUNVESTOL_SMALLEST_STACK_BYTES);
}

static void call_with_little_stack(void)
{
    size_t size = stack_size();
    struct place here = {NULL, NULL, &left_here};
    struct place there = {map_walled(size), NULL, &left_there};
    memset(&left_here, PAINT, sizeof left_here);
    memset(&left_there, PAINT, sizeof left_there);
    lend_all(here.left);
    call_from_here(&here);
    lend_all(there.left);
    run_thread(call_where_little_is_left, &there, size);
    EXPECT(memcmp(&left_here, &left_there, sizeof left_here) == 0);
    EXPECT(left_there.number != PAINT && left_there.answer[RUNVESTOL_YES_AT] <= 1);
    unmap_walled(there.stack, size);
}

static void a_call_runs_on_a_thread_that_has_just_the_stack_that_the_header_asks_for(void)
{
    limits = largest;
    for_each_deep_call(call_with_little_stack);
}

static void the_header_asks_for_the_most_of_all_calls(void)
{
    size_t most = 0;
    for (size_t i = 0; i < operation_count; i++)
        most = operations[i].stack > most ? operations[i].stack : most;
    EXPECT(most == RUNVESTOL_STACK_BYTES);
}

void stack_suite(void)
{
    RUN(the_header_asks_for_the_most_of_all_calls);
    RUN(calls_take_about_the_stack_that_the_header_says_for_the_smallest_set);
    for (size_t i = 0; i < operation_count; i++) {
        operation = &operations[i];
        RUN(a_call_takes_about_the_stack_that_the_header_says);
        RUN(a_call_runs_on_a_thread_that_has_just_the_stack_that_the_header_asks_for);
    }
}
