/*
 * runvestol.h: console records in JSON, their shapes, and readers over them.
 *
 * What the library does so far: it checks a JSON document and rewrites it as plain JSON (runvestol_plain); it infers
 * the shape of documents, sample by sample (runvestol_infer), joins two shapes (runvestol_join), and tells whether one
 * shape is below another (runvestol_below) and whether a shape admits a document (runvestol_admits); it checks a reader
 * against a shape (runvestol_check) and runs it over a document (runvestol_run).
 *
 * JSON is that of RFC 8259 in the UTF-8 of RFC 3629; docs/CONFORMANCE.md goes through both, section by section, and
 * docs/LIMITS.md has every limit. Stricter than the RFCs:
 *   - a document has at most so many bytes and values, nested at most so deep, the root being 1, as the set says that is
 *     handed to the call: 16,384, 512 and 32 in the largest set;
 *   - a number has a coefficient of at most 18 digits, at most 9 of them behind the point, and no exponent;
 *   - a name stands once in a record, compared after escapes are decoded;
 *   - there is no leading byte order mark and no lone surrogate escape.
 *
 * A shape says which kinds of value may stand at each place of a document, and is handed over as a text:
 *   (shape rec
 *    (member "bay"
 *     (shape null int dec))
 *    (member "due"
 *     (shape null text)))
 * A form is (shape KINDS ELEMENT MEMBERS). KINDS are words of null bool int dec text list rec, in this order; dec
 * stands only behind int. With list there is one ELEMENT, a shape; with rec there are MEMBERS, each
 * (member "name" SHAPE), the decoded names strictly ascending by bytes. JSON's white space may stand between tokens. A
 * shape has at most the set's bytes, its values as shape forms, and its nesting; members count for neither. `(shape)` has
 * no kind and is the shape to begin with. Written, a shape has one form a line, as above, and a line feed at its end.
 *
 * A reader is a small program over a document, and is handed over as a text of one result form:
 *   (each (field "sessions" (it 0)) (when null (field "laps" (it 0)) (num 0) (dec (it 0))))
 * A place P is (it N), the N-th binding outward, 0 the innermost and the document the outermost; or (field "name" P).
 * A result R is one of
 *   (int P) (dec P) (bool P) (text P)   the value at P, which has to be of that kind; dec takes an int too, and int
 *                                       writes no fraction
 *   (keep P)                            the value at P, whatever it is
 *   (count P)                           how many elements the list at P has; null has 0
 *   (each P R)                          a list: R with each element of the list at P bound; null has none
 *   (when K P R R)                      the value at P bound in both R: the first where it is a K, else the second
 *   (if R R R)                          the second R where the first is true, the third where it is false
 *   (num N) (str "t") (yes) (no) (none) a number, a text, true, false, null
 *   (pack "name" R ...)                 a record of zero or more members, the decoded names distinct
 * K is null, bool, int, num, text, list or rec. A number whose fraction digits are all zero is an int, 12.0 too. A member
 * that a record lacks reads as null, and so does any member of null. White space and names are as in shapes. A reader has
 * at most the set's bytes, its values as forms, places too, and its nesting. An empty text, or one of JSON's white space
 * only, is a reader too and means (none); it is no shape.
 *
 * What it does not do: it allocates nothing, opens nothing, keeps nothing from one call to the next, and touches no
 * memory of the host but what is lent to the call. It has no floating point numbers and no streams: a text is
 * handed over whole.
 *
 * What the host must keep to:
 *   - a pointer and the length behind it describe one buffer of that many bytes, which nothing else writes while the
 *     call runs; where the length is 0 nothing is read or written through the pointer, and it may be null;
 *   - what a call writes to (output, answer) overlaps nothing else lent to that call;
 *   - one call at a time;
 *   - the call's bytes of stack, RUNVESTOL_STACK_BYTES for any call, are free where it is made.
 * Nothing else is asked: every set of numbers, every text, of any bytes and any length, and every length of a buffer has
 * its answer. Where the outcome of one call is a text of another, hand both the same set.
 *
 * Link with librunvestol.a, which `make` writes to target/staticlib/ and `make install` puts where
 * `pkg-config --cflags --libs runvestol` finds it. It is x86-64 code for Linux, and needs no library but the C library.
 * examples/host.c is a host over it.
 */
#ifndef RUNVESTOL_H
#define RUNVESTOL_H

#include <stddef.h>
#include <stdint.h>

#ifdef __cplusplus
extern "C" {
#endif

#define RUNVESTOL_VERSION "0.1.0"

/*
 * The set: four numbers that each call takes in front of its texts, and judges all, whether it has a use for them or not.
 *   bytes     the most bytes of a text that is read, a document, a shape or a reader, and of a shape that is written
 *   values    the most values of a document and of a run's result, and the most forms of a shape and of a reader
 *   nesting   how deep these are nested at most, the root being 1
 *   steps     the most steps of a run
 * Each has a range, both ends in. A number outside is RUNVESTOL_LIMIT_OUT_OF_RANGE; which one is not told, and 0 is no
 * default. A call that returns RUNVESTOL_OK at a set leaves the same at every set of which no number is smaller.
 */
#define RUNVESTOL_LEAST_BYTES 1024
#define RUNVESTOL_MOST_BYTES 16384
#define RUNVESTOL_LEAST_VALUES 16
#define RUNVESTOL_MOST_VALUES 512
#define RUNVESTOL_LEAST_NESTING 4
#define RUNVESTOL_MOST_NESTING 32
#define RUNVESTOL_LEAST_STEPS 256
#define RUNVESTOL_MOST_STEPS 65536

/* The largest and the smallest set, as the four parameters that it is: runvestol_plain(RUNVESTOL_LARGEST, document, ...). */
#define RUNVESTOL_LARGEST RUNVESTOL_MOST_BYTES, RUNVESTOL_MOST_VALUES, RUNVESTOL_MOST_NESTING, RUNVESTOL_MOST_STEPS
#define RUNVESTOL_SMALLEST RUNVESTOL_LEAST_BYTES, RUNVESTOL_LEAST_VALUES, RUNVESTOL_LEAST_NESTING, RUNVESTOL_LEAST_STEPS

/* The bytes of an answer. */
#define RUNVESTOL_ANSWER_BYTES 40

/*
 * The bytes of stack that each call needs below its caller's frame, most of them its work slices
 * (docs/WORK-SLICES.md), and the most of these. tests/c measures each anew, on texts of as many levels as may be:
 *   plain     44,288 at the deepest, and at the smallest set 34,880
 *   infer     70,168                                         59,808
 *   join      64,608                                         51,616
 *   below     58,704                                         51,088
 *   admits    68,976                                         59,568
 *   check     80,728                                         67,344
 *   run       91,712                                         79,616
 */
#define RUNVESTOL_PLAIN_STACK_BYTES 49152
#define RUNVESTOL_INFER_STACK_BYTES 73728
#define RUNVESTOL_JOIN_STACK_BYTES 65536
#define RUNVESTOL_BELOW_STACK_BYTES 65536
#define RUNVESTOL_ADMITS_STACK_BYTES 73728
#define RUNVESTOL_CHECK_STACK_BYTES 90112
#define RUNVESTOL_RUN_STACK_BYTES 106496
#define RUNVESTOL_STACK_BYTES 106496

/* What any call needs at the smallest set, whatever its texts. */
#define RUNVESTOL_SMALLEST_STACK_BYTES 81920

/*
 * What a call returns: 0, or why it refused. These numbers never change; new ones are added behind the last. Each call's
 * description names those that it can return. 3 to 6 are a document's, 7 and 8 a shape's or a reader's. 2, 6, 8, 11, 13 and
 * 14 go by the set that is handed over. No call returns 16 or 17.
 */
enum runvestol_number {
    RUNVESTOL_OK = 0,                  /* done */
    RUNVESTOL_ANSWER_TOO_SHORT = 1,    /* the answer buffer has under RUNVESTOL_ANSWER_BYTES bytes */
    RUNVESTOL_TEXT_TOO_LONG = 2,       /* a text has more bytes than the set's */
    RUNVESTOL_JSON_SYNTAX = 3,         /* at the first byte with which no JSON text begins so, or at the end */
    RUNVESTOL_NUMBER_LIMIT = 4,        /* a number of too many digits or with an exponent, at its first byte */
    RUNVESTOL_DUPLICATE_NAME = 5,      /* a name a second time in its record, at its quote */
    RUNVESTOL_VALUE_LIMIT = 6,         /* a value too many or nested too deep, at its first byte */
    RUNVESTOL_FORM_SYNTAX = 7,         /* the first token that no shape or reader has there, or the end */
    RUNVESTOL_FORM_LIMIT = 8,          /* a form too many or nested too deep, at its bracket */
    RUNVESTOL_UNWANTED_KIND = 9,       /* check: a kind that the form does not want, at the form */
    RUNVESTOL_UNLISTED_NAME = 10,      /* check: a name that the shape does not list, at the form */
    RUNVESTOL_SHAPE_LIMIT = 11,        /* the shape to be written has too many forms, levels or bytes */
    RUNVESTOL_STUCK = 12,              /* run: a value that the form does not take, at the form */
    RUNVESTOL_STEP_LIMIT = 13,         /* run: a step too many, at the form */
    RUNVESTOL_RESULT_LIMIT = 14,       /* run: a result of too many values or levels */
    RUNVESTOL_OUTPUT_TOO_SHORT = 15,   /* the output is shorter than what there is to write */
    RUNVESTOL_LIMIT_OUT_OF_RANGE = 18  /* a number of the set is outside its range */
};

/*
 * The words of a number, for a log or a person; of any number, those that no call returns among them. Those that go by the set
 * are said without its numbers, and where the text ends too early 3 and 7 are said as anywhere.
 */
static inline const char *runvestol_message(uint64_t number)
{
    switch (number) {
    case RUNVESTOL_OK: return "done";
    case RUNVESTOL_ANSWER_TOO_SHORT: return "the answer buffer is too short";
    case RUNVESTOL_TEXT_TOO_LONG: return "the text has too many bytes";
    case RUNVESTOL_JSON_SYNTAX: return "no JSON text goes on like this";
    case RUNVESTOL_NUMBER_LIMIT: return "the number has over 18 digits, over 9 behind the point, or an exponent";
    case RUNVESTOL_DUPLICATE_NAME: return "the name stands a second time in its record";
    case RUNVESTOL_VALUE_LIMIT: return "the value is one too many or nested too deep";
    case RUNVESTOL_FORM_SYNTAX: return "no shape or reader goes on like this";
    case RUNVESTOL_FORM_LIMIT: return "the form is one too many or nested too deep";
    case RUNVESTOL_UNWANTED_KIND: return "the form may meet a kind of value that it does not want";
    case RUNVESTOL_UNLISTED_NAME: return "the shape does not list the name";
    case RUNVESTOL_SHAPE_LIMIT: return "the shape to be written has too many forms, levels or bytes";
    case RUNVESTOL_STUCK: return "the form met a kind of value that it does not want";
    case RUNVESTOL_STEP_LIMIT: return "the form would be a step too many";
    case RUNVESTOL_RESULT_LIMIT: return "the result has too many values or levels";
    case RUNVESTOL_OUTPUT_TOO_SHORT: return "the output is too short";
    case RUNVESTOL_LIMIT_OUT_OF_RANGE: return "a limit is out of its range";
    default: return "a number that this version does not know";
    }
}

/*
 * Where the words of an answer begin. Each is 8 bytes, the low byte first; a word that a call's description does not
 * name for a number is 0.
 */
enum runvestol_answer {
    RUNVESTOL_TEXT_AT = 0,      /* which text is refused: 1 or 2, in the order of the call's parameters */
    RUNVESTOL_PLACE_AT = 8,     /* the byte of that text at which the cause stands, from 0; its length for the end */
    RUNVESTOL_LENGTH_AT = 16,   /* how many bytes were written, or how many there are to write */
    RUNVESTOL_STEPS_AT = 24,    /* run: the steps taken */
    RUNVESTOL_YES_AT = 32       /* below, admits: 1 for yes */
};

/*
 * Rewrites a document as plain JSON: no white space, members in their order, numbers digit for digit (zero without a
 * minus), and no escapes but those of the quote, the backslash and the bytes below 0x20, in two characters where RFC
 * 8259 has them and else as \u00 and two lower-case digits.
 *
 *   bytes, values, nesting, steps
 *                               the set; steps has no use here, and is judged.
 *   document, document_length   the document. Any length is right: over the set's bytes it is refused unread. Only read.
 *   output, output_length       where the plain JSON goes. As many bytes as the document has are always enough, and so
 *                               are the set's.
 *   answer, answer_length       where the answer goes, RUNVESTOL_ANSWER_BYTES or more. Bytes behind those are kept.
 *
 * Returns
 *   RUNVESTOL_OK                 The first `length` bytes of the output are the plain JSON; the others are as before.
 *   RUNVESTOL_LIMIT_OUT_OF_RANGE All words are 0. This is judged before all else; where the answer buffer is too short as
 *                                well, the number is returned and nothing is written.
 *   RUNVESTOL_ANSWER_TOO_SHORT   The answer is not written either: this is judged next.
 *   RUNVESTOL_TEXT_TOO_LONG      text is 1.
 *   RUNVESTOL_JSON_SYNTAX, RUNVESTOL_NUMBER_LIMIT, RUNVESTOL_DUPLICATE_NAME, RUNVESTOL_VALUE_LIMIT
 *                                text is 1, place is where. Of several the one with the smallest place is given, at one
 *                                place the smallest number.
 *   RUNVESTOL_OUTPUT_TOO_SHORT   length is what the output needs.
 * Whatever is refused, every byte of the output is as before the call.
 */
uint64_t runvestol_plain(uint64_t bytes, uint64_t values, uint64_t nesting, uint64_t steps,
                         const uint8_t *document, size_t document_length,
                         uint8_t *output, size_t output_length,
                         uint8_t *answer, size_t answer_length);

/*
 * The rules that the calls on two texts have in common.
 *
 * The set goes first, as in runvestol_plain: where a number of it is out of its range the call returns
 * RUNVESTOL_LIMIT_OUT_OF_RANGE with all words 0, also where the answer buffer is too short, which is then not written. The
 * answer buffer's length is judged next, and the texts behind it. steps has a use in runvestol_run alone.
 *
 * Two texts are judged one behind the other: whatever there is to refuse in text 1 goes before anything in text 2.
 * Within one text RUNVESTOL_TEXT_TOO_LONG goes first, then the smallest place, and at one place the smallest number.
 * `text` is the one refused, 1 or 2 in the order of the parameters, and `place` stands in that text; with
 * RUNVESTOL_TEXT_TOO_LONG it is 0.
 *
 * Only read, and right at any length: the two texts. A text over the set's bytes is refused unread.
 * Whatever is refused, every byte of the output is as before the call.
 */

/*
 * Joins a shape with the shape of a document, a sample: the least shape that the first is below and that admits the
 * document. To infer the shape of many samples, begin with the text "(shape)" and hand on what the call before wrote; a
 * sample that is refused leaves it. In whatever order the samples come, the same bytes are reached, unless one is
 * refused.
 *
 * The shape of a value: a scalar has its kind, a number that is no int both int and dec; a list has the join of its
 * elements' shapes, (shape) where it is empty; a record has its members. Where two records meet, a member of only one
 * of them gets null. A shape that was kept from before 12.0 was an int is to be inferred afresh: it may not be the least.
 *
 *   bytes, values, nesting, steps   the set.
 *   shape, shape_length         text 1, the shape reached so far.
 *   document, document_length   text 2, the sample.
 *   output, output_length       where the shape text goes. As many bytes as the set's are always enough.
 *   answer, answer_length       where the answer goes, RUNVESTOL_ANSWER_BYTES or more. Bytes behind those are kept.
 *
 * Returns
 *   RUNVESTOL_OK                 The first `length` bytes of the output are the shape's text; the others are as before.
 *   RUNVESTOL_LIMIT_OUT_OF_RANGE A number of the set is outside its range; all words are 0.
 *   RUNVESTOL_ANSWER_TOO_SHORT   The answer is not written either.
 *   RUNVESTOL_TEXT_TOO_LONG      text is 1 or 2.
 *   RUNVESTOL_FORM_SYNTAX, RUNVESTOL_FORM_LIMIT
 *                                text is 1, place is where.
 *   RUNVESTOL_JSON_SYNTAX, RUNVESTOL_NUMBER_LIMIT, RUNVESTOL_DUPLICATE_NAME, RUNVESTOL_VALUE_LIMIT
 *                                text is 2, place is where.
 *   RUNVESTOL_SHAPE_LIMIT        Both texts are right, and their join is too large to be written; all words are 0.
 *   RUNVESTOL_OUTPUT_TOO_SHORT   length is what the output needs.
 */
uint64_t runvestol_infer(uint64_t bytes, uint64_t values, uint64_t nesting, uint64_t steps,
                         const uint8_t *shape, size_t shape_length,
                         const uint8_t *document, size_t document_length,
                         uint8_t *output, size_t output_length,
                         uint8_t *answer, size_t answer_length);

/*
 * Joins two shapes: the least shape that both are below. Kinds are united, elements and members of one name joined;
 * where both have rec, a member of only one of them gets null, and where one has, its members are kept as they are.
 *
 *   bytes, values, nesting, steps   the set.
 *   first, first_length     text 1, a shape.
 *   second, second_length   text 2, a shape.
 *   output, output_length   where the shape text goes. As many bytes as the set's are always enough.
 *   answer, answer_length   where the answer goes, RUNVESTOL_ANSWER_BYTES or more. Bytes behind those are kept.
 *
 * Returns
 *   RUNVESTOL_OK                 The first `length` bytes of the output are the shape's text; the others are as before.
 *   RUNVESTOL_LIMIT_OUT_OF_RANGE A number of the set is outside its range; all words are 0.
 *   RUNVESTOL_ANSWER_TOO_SHORT   The answer is not written either.
 *   RUNVESTOL_TEXT_TOO_LONG      text is 1 or 2.
 *   RUNVESTOL_FORM_SYNTAX, RUNVESTOL_FORM_LIMIT
 *                                text is 1 or 2, place is where.
 *   RUNVESTOL_SHAPE_LIMIT        Both texts are right, and their join is too large to be written; all words are 0.
 *   RUNVESTOL_OUTPUT_TOO_SHORT   length is what the output needs.
 */
uint64_t runvestol_join(uint64_t bytes, uint64_t values, uint64_t nesting, uint64_t steps,
                        const uint8_t *first, size_t first_length,
                        const uint8_t *second, size_t second_length,
                        uint8_t *output, size_t output_length,
                        uint8_t *answer, size_t answer_length);

/*
 * Tells whether the first shape is below the second, so that whatever the first admits, the second does: the second
 * has the first's kinds; the element is below the other's; and where the first has rec, each of its members is one of
 * the second's with a shape below that one's, and those of the second that the first lacks have null.
 *
 *   bytes, values, nesting, steps   the set.
 *   first, first_length     text 1, a shape.
 *   second, second_length   text 2, a shape.
 *   answer, answer_length   where the answer goes, RUNVESTOL_ANSWER_BYTES or more. Bytes behind those are kept.
 *
 * Returns
 *   RUNVESTOL_OK                 yes is 1 where the first is below the second, else 0. length is 0.
 *   RUNVESTOL_LIMIT_OUT_OF_RANGE A number of the set is outside its range; all words are 0.
 *   RUNVESTOL_ANSWER_TOO_SHORT   The answer is not written.
 *   RUNVESTOL_TEXT_TOO_LONG      text is 1 or 2.
 *   RUNVESTOL_FORM_SYNTAX, RUNVESTOL_FORM_LIMIT
 *                                text is 1 or 2, place is where.
 */
uint64_t runvestol_below(uint64_t bytes, uint64_t values, uint64_t nesting, uint64_t steps,
                         const uint8_t *first, size_t first_length,
                         const uint8_t *second, size_t second_length,
                         uint8_t *answer, size_t answer_length);

/*
 * Tells whether a shape admits a document: each value's kind is listed where it stands, a number that is no int
 * needing dec; every member is listed; and every member listed that a record lacks has null.
 *
 *   bytes, values, nesting, steps   the set.
 *   shape, shape_length         text 1, the shape.
 *   document, document_length   text 2, the document.
 *   answer, answer_length       where the answer goes, RUNVESTOL_ANSWER_BYTES or more. Bytes behind those are kept.
 *
 * Returns
 *   RUNVESTOL_OK                 yes is 1 where the shape admits the document, else 0. length is 0.
 *   RUNVESTOL_LIMIT_OUT_OF_RANGE A number of the set is outside its range; all words are 0.
 *   RUNVESTOL_ANSWER_TOO_SHORT   The answer is not written.
 *   RUNVESTOL_TEXT_TOO_LONG      text is 1 or 2.
 *   RUNVESTOL_FORM_SYNTAX, RUNVESTOL_FORM_LIMIT
 *                                text is 1, place is where.
 *   RUNVESTOL_JSON_SYNTAX, RUNVESTOL_NUMBER_LIMIT, RUNVESTOL_DUPLICATE_NAME, RUNVESTOL_VALUE_LIMIT
 *                                text is 2, place is where.
 */
uint64_t runvestol_admits(uint64_t bytes, uint64_t values, uint64_t nesting, uint64_t steps,
                          const uint8_t *shape, size_t shape_length,
                          const uint8_t *document, size_t document_length,
                          uint8_t *answer, size_t answer_length);

/*
 * Checks a reader against the shape of the documents that it is to run over: no form meets a kind of value that it does not
 * want, and no name that the shape does not list, whatever document the shape admits. Writes the result shape, which admits
 * whatever comes of the reader on such a document.
 *
 * field wants rec or null and a name that is listed, int, bool and text want their own kind, dec wants int or dec, count and
 * each want list or null, and the first R of if wants bool: a form's place or part may have no other kind there. Where the
 * place of field has null, so has what field gives; null alone lists no name. In the first R of when the value bound has the
 * kinds of K alone, in the second the others, where int stays beside dec.
 *
 *   bytes, values, nesting, steps   the set.
 *   reader, reader_length   text 1, the reader.
 *   shape, shape_length     text 2, the shape.
 *   output, output_length   where the result shape's text goes. As many bytes as the set's are always enough.
 *   answer, answer_length   where the answer goes, RUNVESTOL_ANSWER_BYTES or more. Bytes behind those are kept.
 *
 * Returns
 *   RUNVESTOL_OK                 The reader passes. The first `length` bytes of the output are the result shape's text; the
 *                                others are as before.
 *   RUNVESTOL_LIMIT_OUT_OF_RANGE A number of the set is outside its range; all words are 0.
 *   RUNVESTOL_ANSWER_TOO_SHORT   The answer is not written either.
 *   RUNVESTOL_TEXT_TOO_LONG      text is 1 or 2.
 *   RUNVESTOL_FORM_SYNTAX, RUNVESTOL_FORM_LIMIT
 *                                text is 1 or 2, place is where.
 *   RUNVESTOL_UNWANTED_KIND, RUNVESTOL_UNLISTED_NAME
 *                                text is 1, place is that of the form. Parts are checked from left to right and then the
 *                                form itself, and the first that is met is given; at one form RUNVESTOL_UNWANTED_KIND.
 *   RUNVESTOL_SHAPE_LIMIT        The reader passes, and its result shape is too large to be written; all words are 0.
 *   RUNVESTOL_OUTPUT_TOO_SHORT   length is what the output needs.
 */
uint64_t runvestol_check(uint64_t bytes, uint64_t values, uint64_t nesting, uint64_t steps,
                         const uint8_t *reader, size_t reader_length,
                         const uint8_t *shape, size_t shape_length,
                         uint8_t *output, size_t output_length,
                         uint8_t *answer, size_t answer_length);

/*
 * Runs a reader over a document, and writes what comes of it as plain JSON, as runvestol_plain writes. The reader needs no
 * check before. One that passed the check against a shape is never RUNVESTOL_STUCK on a document that the shape admits, and
 * what it writes is admitted by the result shape.
 *
 * A form counts one step each time that it is entered, places too. Parts run from left to right, and of when and if only the
 * branch that is chosen. A form is stuck where it meets a value of another kind than it wants (see runvestol_check).
 *
 *   bytes, values, nesting, steps   the set.
 *   reader, reader_length       text 1, the reader.
 *   document, document_length   text 2, the document.
 *   output, output_length       where the result goes. It may be longer than any text, as a reader may keep one many times: lend
 *                               what you have, and where it is too short, call again with the length that the answer has.
 *   answer, answer_length       where the answer goes, RUNVESTOL_ANSWER_BYTES or more. Bytes behind those are kept.
 *
 * Returns
 *   RUNVESTOL_OK                 The first `length` bytes of the output are the result as plain JSON; the others are as
 *                                before. steps is how many steps were taken.
 *   RUNVESTOL_LIMIT_OUT_OF_RANGE A number of the set is outside its range; all words are 0.
 *   RUNVESTOL_ANSWER_TOO_SHORT   The answer is not written either.
 *   RUNVESTOL_TEXT_TOO_LONG      text is 1 or 2.
 *   RUNVESTOL_FORM_SYNTAX, RUNVESTOL_FORM_LIMIT
 *                                text is 1, place is where.
 *   RUNVESTOL_JSON_SYNTAX, RUNVESTOL_NUMBER_LIMIT, RUNVESTOL_DUPLICATE_NAME, RUNVESTOL_VALUE_LIMIT
 *                                text is 2, place is where.
 *   RUNVESTOL_STUCK, RUNVESTOL_STEP_LIMIT
 *                                text is 1, place is that of the form: the one that is stuck, or that would be entered by the
 *                                first step over the set's. The first that is met is given.
 *   RUNVESTOL_RESULT_LIMIT       The result has more values or levels than the set's; all words are 0.
 *   RUNVESTOL_OUTPUT_TOO_SHORT   length is what the output needs.
 */
uint64_t runvestol_run(uint64_t bytes, uint64_t values, uint64_t nesting, uint64_t steps,
                       const uint8_t *reader, size_t reader_length,
                       const uint8_t *document, size_t document_length,
                       uint8_t *output, size_t output_length,
                       uint8_t *answer, size_t answer_length);

#ifdef __cplusplus
}
#endif

#endif
