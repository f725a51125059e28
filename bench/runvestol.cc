// runvestol_plain, from document to output, with all of its refusals judged.
#include "peer.h"
#include "runvestol.h"

static std::string_view rewrite(const char *document, std::size_t length) {
    static uint8_t output[ROOM];
    static uint8_t answer[RUNVESTOL_ANSWER_BYTES];
    const auto *text = reinterpret_cast<const uint8_t *>(document);
    if (runvestol_plain(RUNVESTOL_LARGEST, text, length, output, sizeof output, answer, sizeof answer) != RUNVESTOL_OK) return {};
    std::size_t written = 0;
    for (int i = 23; 16 <= i; i--) written = written * 256 + answer[i];  // the answer's third word
    return {reinterpret_cast<char *>(output), written};
}

Peer runvestol_peer() { return {"**runvestol_plain**", "", rewrite}; }
