// The library's calls on a document: plain, infer from a shape, and admits. Each call reads its texts anew, the shape's too.
#include "peer.h"
#include "runvestol.h"
#include "task.h"

namespace {

const uint8_t *bytes_of(const char *text) { return reinterpret_cast<const uint8_t *>(text); }
const uint8_t *bytes_of(const std::string &text) { return bytes_of(text.data()); }

uint8_t output[2 * ROOM];  // a shape may be longer than a document
uint8_t answer[RUNVESTOL_ANSWER_BYTES];

uint64_t call_infer(const std::string &shape, const char *document, std::size_t length) {
    return runvestol_infer(RUNVESTOL_LARGEST, bytes_of(shape), shape.size(), bytes_of(document), length, output, sizeof output, answer,
                           sizeof answer);
}

struct Plain : Task {
    bool run(const char *document, std::size_t length) override {
        return runvestol_plain(RUNVESTOL_LARGEST, bytes_of(document), length, output, sizeof output, answer, sizeof answer) == RUNVESTOL_OK;
    }
};

struct Infer : Task {
    std::string shape;

    explicit Infer(std::string text) : shape(std::move(text)) {}
    bool run(const char *document, std::size_t length) override { return call_infer(shape, document, length) == RUNVESTOL_OK; }
};

struct Admits : Task {
    std::string shape;

    explicit Admits(std::string text) : shape(std::move(text)) {}
    bool run(const char *document, std::size_t length) override {
        return runvestol_admits(RUNVESTOL_LARGEST, bytes_of(shape), shape.size(), bytes_of(document), length, answer, sizeof answer) ==
                   RUNVESTOL_OK &&
               answer[RUNVESTOL_YES_AT] == 1;
    }
};

std::unique_ptr<Task> ready_plain(const std::string &, const std::string &) { return std::make_unique<Plain>(); }
std::unique_ptr<Task> ready_infer(const std::string &shape, const std::string &) { return std::make_unique<Infer>(shape); }
std::unique_ptr<Task> ready_admits(const std::string &shape, const std::string &) { return std::make_unique<Admits>(shape); }

}  // namespace

Caller plain_caller() { return {"**runvestol_plain**", "", ready_plain}; }
Caller infer_caller() { return {"**runvestol_infer**", "", ready_infer}; }
Caller admits_caller() { return {"**runvestol_admits**", "", ready_admits}; }

std::string inferred(const std::string &shape, const char *document, std::size_t length) {
    if (call_infer(shape, document, length) != RUNVESTOL_OK) return {};
    std::size_t written = 0;
    for (int i = RUNVESTOL_LENGTH_AT + 7; RUNVESTOL_LENGTH_AT <= i; i--) written = written * 256 + answer[i];
    return std::string(reinterpret_cast<char *>(output), written);
}
