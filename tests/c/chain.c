/* Samples joined one behind the other: whatever their order, the same bytes are reached. */
#include <string.h>

#include "calls.h"
#include "check.h"
#include "draft.h"
#include "runvestol.h"
#include "suites.h"

/* Console records of several model years: members that come and go, null, 4 and 4.5, and names at each place. */
static const struct bytes samples[] = {
    BYTES("{\"console\":\"R2\",\"sessions\":[{\"start\":\"17:20\",\"seconds\":1200}]}"),
    BYTES("{\"console\":\"R3\",\"due\":null,\"sessions\":[{\"start\":\"\",\"laps\":null,\"seconds\":1}],\"bay\":4}"),
    BYTES("{\"bay\":4.5,\"console\":\"B4\",\"due\":\"jan\","
          "\"sessions\":[{\"laps\":4,\"heart\":139,\"seconds\":7,\"start\":\"\"}]}"),
    BYTES("{\"console\":\"B6\",\"\\u0064ue\":null,\"sessions\":[],\"faults\":[]}"),
    BYTES("{\"sessions\":[{\"heart\":{\"peak\":176,\"mean\":141.2},\"laps\":4.5,\"seconds\":9,\"start\":\"\"}],"
          "\"console\":\"\"}"),
    BYTES("null"),
};

enum { SAMPLES = sizeof samples / sizeof *samples };

static const struct bytes reached = BYTES(
    "(shape null rec\n (member \"bay\"\n  (shape null int dec))\n (member \"console\"\n  (shape text))\n"
    " (member \"due\"\n  (shape null text))\n (member \"faults\"\n  (shape null list\n   (shape)))\n"
    " (member \"sessions\"\n  (shape list\n   (shape rec\n    (member \"heart\"\n     (shape null int rec\n"
    "      (member \"mean\"\n       (shape int dec))\n      (member \"peak\"\n       (shape int))))\n"
    "    (member \"laps\"\n     (shape null int dec))\n    (member \"seconds\"\n     (shape int))\n"
    "    (member \"start\"\n     (shape text))))))\n");

static const struct bytes refused_samples[] = {
    BYTES("{\"console\":\"R2\",\"sessions\":["), BYTES("1e5"), BYTES("{\"a\":1,\"a\":2}"), BYTES(""),
    BYTES("[[[[[[[[[[[[[[[[[[[[[[[[[[[[[[[[]]]]]]]]]]]]]]]]]]]]]]]]]]]]]]]]"),
};

enum { REFUSED_SAMPLES = sizeof refused_samples / sizeof *refused_samples };

/* ---- calls without guards: these are many, and others look at every byte */

static uint8_t answer[RUNVESTOL_ANSWER_BYTES];

/* Makes a call of two texts with some output, and leaves its answer. */
static uint64_t answer_to(const char *operation, struct bytes text_1, struct bytes text_2, struct lent output)
{
    const struct loan loan = {
        .limits = largest,
        .texts = {{.bytes = (uint8_t *)text_1.at, .length = text_1.length},
                  {.bytes = (uint8_t *)text_2.at, .length = text_2.length}},
        .output = output,
        .answer = {.bytes = answer, .length = sizeof answer},
    };
    return operation_named(operation)->call(&loan);
}

/* Writes what the operation makes of two texts into a draft, and gives the number. */
static uint64_t make(const char *operation, struct bytes text_1, struct bytes text_2, size_t room, struct draft *to)
{
    uint64_t number = answer_to(operation, text_1, text_2, (struct lent){.bytes = to->bytes, .length = room});
    if (number == RUNVESTOL_OK)
        to->length = answer[RUNVESTOL_LENGTH_AT] + 256u * answer[RUNVESTOL_LENGTH_AT + 1];
    return number;
}

static bool says_below(struct bytes lower, struct bytes higher)
{
    return answer_to("below", lower, higher, (struct lent){.length = 0}) == RUNVESTOL_OK && answer[RUNVESTOL_YES_AT] == 1;
}

static bool same_bytes(struct bytes a, struct bytes b)
{
    return a.length == b.length && memcmp(a.at, b.at, a.length) == 0;
}

/* ---- a chain */

/* The shape reached so far, and where the next call writes. */
struct chain {
    struct draft *shape, *next;
};

static struct draft drafts[4];

static struct chain begin_chain(void)
{
    drafts[0].length = 0;
    put(&drafts[0], "(shape)\n");
    return (struct chain){&drafts[0], &drafts[1]};
}

/* Hands a sample to infer; what an accepted call wrote takes the shape's place. */
static uint64_t take_sample(struct chain *chain, struct bytes sample, size_t room)
{
    uint64_t number = make("infer", drafted(chain->shape), sample, room, chain->next);
    if (number == RUNVESTOL_OK)
        *chain = (struct chain){chain->next, chain->shape};
    return number;
}

static void take_all(struct chain *chain, const int *order)
{
    for (int i = 0; i < SAMPLES; i++)
        EXPECT(take_sample(chain, samples[order[i]], RUNVESTOL_MOST_BYTES) == RUNVESTOL_OK);
}

/* ---- every order */

static void run_orders(int *order, int fixed, void (*run)(const int *))
{
    if (fixed == SAMPLES)
        run(order);
    for (int i = fixed; i < SAMPLES; i++) {
        int here = order[fixed], there = order[i];
        order[fixed] = there;
        order[i] = here;
        run_orders(order, fixed + 1, run);
        order[fixed] = here;
        order[i] = there;
    }
}

static void for_each_order(void (*run)(const int *order))
{
    int order[SAMPLES];
    for (int i = 0; i < SAMPLES; i++)
        order[i] = i;
    run_orders(order, 0, run);
}

static void expect_reached(const int *order)
{
    struct chain chain = begin_chain();
    take_all(&chain, order);
    EXPECT(same_bytes(drafted(chain.shape), reached));
}

static void samples_in_every_order_reach_the_same_bytes(void)
{
    for_each_order(expect_reached);
}

/* Before each sample one that is refused, and the sample itself with an output of too few bytes. */
static void expect_reached_past_refusals(const int *order)
{
    struct chain chain = begin_chain();
    for (int i = 0; i < SAMPLES; i++) {
        EXPECT(take_sample(&chain, refused_samples[order[i] % REFUSED_SAMPLES], RUNVESTOL_MOST_BYTES) > RUNVESTOL_OK);
        EXPECT(take_sample(&chain, samples[order[i]], 10) == RUNVESTOL_OUTPUT_TOO_SHORT);
        EXPECT(take_sample(&chain, samples[order[i]], RUNVESTOL_MOST_BYTES) == RUNVESTOL_OK);
    }
    EXPECT(same_bytes(drafted(chain.shape), reached));
}

static void a_refused_sample_leaves_the_shape_reached(void)
{
    for_each_order(expect_reached_past_refusals);
}

static void a_second_round_of_the_samples_changes_nothing(void)
{
    static const int order[] = {0, 1, 2, 3, 4, 5};
    struct chain chain = begin_chain();
    take_all(&chain, order);
    take_all(&chain, order);
    EXPECT(same_bytes(drafted(chain.shape), reached));
}

/* ---- infer, join, below and admits agree */

/* The shape of a sample. */
static struct bytes shape_of(int sample, struct draft *to)
{
    EXPECT(make("infer", bytes_of("(shape)"), samples[sample], RUNVESTOL_MOST_BYTES, to) == RUNVESTOL_OK);
    return drafted(to);
}

static void infer_is_the_join_with_the_samples_shape(void)
{
    for (int i = 0; i < SAMPLES; i++) {
        for (int j = 0; j < SAMPLES; j++) {
            struct bytes a = shape_of(i, &drafts[0]), b = shape_of(j, &drafts[1]);
            EXPECT(make("infer", a, samples[j], RUNVESTOL_MOST_BYTES, &drafts[2]) == RUNVESTOL_OK);
            EXPECT(make("join", a, b, RUNVESTOL_MOST_BYTES, &drafts[3]) == RUNVESTOL_OK);
            EXPECT(same_bytes(drafted(&drafts[2]), drafted(&drafts[3])));
            EXPECT(make("join", b, a, RUNVESTOL_MOST_BYTES, &drafts[3]) == RUNVESTOL_OK);
            EXPECT(same_bytes(drafted(&drafts[2]), drafted(&drafts[3])));
        }
    }
}

static void expect_verdict(const char *operation, struct bytes text_1, struct bytes text_2, bool yes)
{
    const struct bytes texts[] = {text_1, text_2};
    const struct outcome expected = {.yes = yes};
    expect_of_texts(operation_named(operation), texts, 0, &expected);
}

static void the_shape_reached_admits_every_sample_and_has_its_shape_below(void)
{
    for (int i = 0; i < SAMPLES; i++) {
        struct bytes shape = shape_of(i, &drafts[0]);
        expect_verdict("admits", reached, samples[i], true);
        expect_verdict("admits", shape, samples[i], true);
        expect_verdict("below", shape, reached, true);
        expect_verdict("below", reached, shape, false);
    }
}

/* ---- old readers against what further samples reach */

static const char *const readers[] = {
    "(none)",
    "(keep (it 0))",
    "(int (field \"bay\" (it 0)))",
    "(keep (field \"bay\" (it 0)))",
    "(when null (field \"due\" (it 0)) (str \"\") (text (it 0)))",
    "(count (field \"faults\" (it 0)))",
    "(each (field \"sessions\" (it 0)) (pack \"laps\" (keep (field \"laps\" (it 0))) \"start\" (text (field \"start\" (it 0)))))",
    "(each (field \"sessions\" (it 0)) (int (field \"heart\" (it 0))))",
};

enum { READERS = sizeof readers / sizeof *readers };

/* What each reader's check wrote where it passed last; how often a result was widened, and a reader lost, in all orders. */
static struct draft results[READERS], result;
static bool has_passed[READERS];
static int times_widened, times_lost;

/* A reader that passed before: its result is below that of now, or 9 is the number. */
static void expect_no_narrower(int reader, uint64_t number)
{
    EXPECT(number == RUNVESTOL_OK || number == RUNVESTOL_UNWANTED_KIND);
    times_lost += number == RUNVESTOL_UNWANTED_KIND;
    if (number != RUNVESTOL_OK)
        return;
    EXPECT(says_below(drafted(&results[reader]), drafted(&result)));
    times_widened += !same_bytes(drafted(&results[reader]), drafted(&result));
}

static void check_readers(struct bytes shape)
{
    for (int i = 0; i < READERS; i++) {
        uint64_t number = make("check", bytes_of(readers[i]), shape, RUNVESTOL_MOST_BYTES, &result);
        if (has_passed[i])
            expect_no_narrower(i, number);
        if (number != RUNVESTOL_OK)
            continue;
        has_passed[i] = true;
        results[i].length = result.length;
        memcpy(results[i].bytes, result.bytes, result.length);
    }
}

static void check_readers_behind_each(const int *order)
{
    struct chain chain = begin_chain();
    memset(has_passed, 0, sizeof has_passed);
    for (int i = 0; i < SAMPLES; i++) {
        check_readers(drafted(chain.shape));
        EXPECT(take_sample(&chain, samples[order[i]], RUNVESTOL_MOST_BYTES) == RUNVESTOL_OK);
    }
    check_readers(drafted(chain.shape));
}

static void a_further_sample_widens_a_readers_result_or_loses_it_by_9(void)
{
    for_each_order(check_readers_behind_each);
    EXPECT(times_widened > 1000);
    EXPECT(times_lost > 1000);
}

/* The sample of request Q-13: the reader passes after 4, and after 4.5 too it is 9 at 0; one that keeps the bay is widened. */
static void a_reader_of_ints_is_lost_by_a_fraction(void)
{
    static const struct bytes four = BYTES("{\"bay\":4}"), fraction = BYTES("{\"bay\":4.5}");
    static const struct bytes an_int = BYTES("(shape int)\n"), a_number = BYTES("(shape int dec)\n");
    const struct outcome lost = {.number = RUNVESTOL_UNWANTED_KIND, .text = 1, .place = 0};
    struct chain chain = begin_chain();
    EXPECT(take_sample(&chain, four, RUNVESTOL_MOST_BYTES) == RUNVESTOL_OK);
    for (int i = 2; i < 4; i++) {
        EXPECT(make("check", bytes_of(readers[i]), drafted(chain.shape), RUNVESTOL_MOST_BYTES, &result) == RUNVESTOL_OK);
        EXPECT(same_bytes(drafted(&result), an_int));
    }
    EXPECT(take_sample(&chain, fraction, RUNVESTOL_MOST_BYTES) == RUNVESTOL_OK);
    const struct bytes texts[] = {bytes_of(readers[2]), drafted(chain.shape)};
    expect_of_texts(operation_named("check"), texts, RUNVESTOL_MOST_BYTES, &lost);
    EXPECT(make("check", bytes_of(readers[3]), drafted(chain.shape), RUNVESTOL_MOST_BYTES, &result) == RUNVESTOL_OK);
    EXPECT(same_bytes(drafted(&result), a_number));
    EXPECT(says_below(an_int, a_number) && !says_below(a_number, an_int));
}

void chain_suite(void)
{
    RUN(samples_in_every_order_reach_the_same_bytes);
    RUN(a_refused_sample_leaves_the_shape_reached);
    RUN(a_second_round_of_the_samples_changes_nothing);
    RUN(infer_is_the_join_with_the_samples_shape);
    RUN(the_shape_reached_admits_every_sample_and_has_its_shape_below);
    RUN(a_further_sample_widens_a_readers_result_or_loses_it_by_9);
    RUN(a_reader_of_ints_is_lost_by_a_fraction);
}
