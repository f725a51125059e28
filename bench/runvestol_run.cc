// runvestol_run, from reader and document to output; the reader's text is read anew in each call.
#include "peer.h"
#include "runvestol.h"
#include "transform.h"

static const std::string readers[READERS] = {
    "(each (it 0) (pack \"serial\" (text (field \"serial_number\" (it 0))) \"bay\" (when null (field \"bay\" (it 0)) (num 0) (dec (it 0)))))",
    "(each (it 0) (if (bool (field \"in_service\" (it 0))) (when num (field \"bay\" (it 0)) (dec (it 0)) (num -1)) (none)))",
    "(pack \"units\" (count (it 0)) \"all\" (keep (it 0)))",
};

static const uint8_t *bytes_of(const char *text) { return reinterpret_cast<const uint8_t *>(text); }

static std::string_view transform(Which which, const char *document, std::size_t length) {
    static uint8_t output[2 * ROOM];
    static uint8_t answer[RUNVESTOL_ANSWER_BYTES];
    const std::string &reader = readers[which];
    if (runvestol_run(RUNVESTOL_LARGEST, bytes_of(reader.data()), reader.size(), bytes_of(document), length, output, sizeof output, answer,
                      sizeof answer) != RUNVESTOL_OK)
        return {};
    std::size_t written = 0;
    for (int i = RUNVESTOL_LENGTH_AT + 7; RUNVESTOL_LENGTH_AT <= i; i--) written = written * 256 + answer[i];
    return {reinterpret_cast<char *>(output), written};
}

Transformer runvestol_transformer() { return {"**runvestol_run**", "", transform}; }
