// The C calls of several libraries side by side, each with its time relative to that of the first: plain, infer from the shape of
// the document itself, and admits by it.
#include "peer.h"
#include "rounds.h"
#include "runvestol.h"

#include <cstdio>
#include <cstring>
#include <dlfcn.h>
#include <functional>

namespace {

using Call = std::function<void()>;

struct Library {
    std::string name;
    decltype(&runvestol_plain) plain;
    decltype(&runvestol_infer) infer;
    decltype(&runvestol_admits) admits;
};

uint8_t output[2 * ROOM];  // a shape may be longer than a document
uint8_t answer[RUNVESTOL_ANSWER_BYTES];

const uint8_t *bytes_of(const std::string &text) { return reinterpret_cast<const uint8_t *>(text.data()); }

void *found(void *library, const char *name) {
    void *call = dlsym(library, name);
    if (!call) fail(std::string("no ") + name);
    return call;
}

Library open_library(const std::string &path) {
    void *library = dlopen(path.c_str(), RTLD_NOW | RTLD_LOCAL);
    if (!library) fail(dlerror());
    return {path.substr(path.rfind('/') + 1), reinterpret_cast<decltype(&runvestol_plain)>(found(library, "runvestol_plain")),
            reinterpret_cast<decltype(&runvestol_infer)>(found(library, "runvestol_infer")),
            reinterpret_cast<decltype(&runvestol_admits)>(found(library, "runvestol_admits"))};
}

uint64_t infer(const Library &l, const std::string &shape, const Document &d) {
    return l.infer(RUNVESTOL_LARGEST, bytes_of(shape), shape.size(), bytes_of(d.bytes), d.length, output, sizeof output, answer, sizeof answer);
}

std::string shape_of(const Library &l, const Document &d) {
    if (infer(l, "(shape)\n", d) != RUNVESTOL_OK) fail(d.name + " is refused");
    uint64_t length;
    std::memcpy(&length, answer + RUNVESTOL_LENGTH_AT, sizeof length);
    return std::string(reinterpret_cast<char *>(output), length);
}

void print_sides(const std::string &what, const std::vector<Library> &libraries, const std::vector<Document> &documents,
                 const std::function<Call(const Library &, std::size_t)> &call, Rounds rounds) {
    std::vector<std::vector<Call>> calls;
    for (std::size_t i = 0; i < documents.size(); i++) {
        calls.emplace_back();
        for (const Library &l : libraries) calls.back().push_back(call(l, i));
    }
    std::vector<std::vector<double>> least = measure(calls, rounds);
    print_head(what, documents);
    for (std::size_t p = 0; p < libraries.size(); p++) print_row(libraries[p].name, documents, column(least, p), column(least, 0));
    std::printf("\n");
}

}  // namespace

int main(int count, char **words) {
    if (count < 6) fail("sides ROUNDS TURN LIBRARIES LIBRARY... DOCUMENT...");
    Rounds rounds = rounds_of(words[1], words[2]);
    int first = 4 + std::atoi(words[3]);
    std::vector<Library> libraries;
    std::vector<Document> documents;
    std::vector<std::string> shapes;
    for (int i = 4; i < first && i < count; i++) libraries.push_back(open_library(words[i]));
    for (int i = first; i < count; i++) documents.push_back(load(words[i]));
    for (const Document &d : documents) shapes.push_back(shape_of(libraries.at(0), d));
    print_sides("plain", libraries, documents, [&](const Library &l, std::size_t i) -> Call {
        return [&l, &d = documents[i]] {
            l.plain(RUNVESTOL_LARGEST, bytes_of(d.bytes), d.length, output, sizeof output, answer, sizeof answer);
        };
    }, rounds);
    print_sides("infer", libraries, documents, [&](const Library &l, std::size_t i) -> Call {
        return [&l, &d = documents[i], &shape = shapes[i]] { infer(l, shape, d); };
    }, rounds);
    print_sides("admits", libraries, documents, [&](const Library &l, std::size_t i) -> Call {
        return [&l, &d = documents[i], &shape = shapes[i]] {
            l.admits(RUNVESTOL_LARGEST, bytes_of(shape), shape.size(), bytes_of(d.bytes), d.length, answer, sizeof answer);
        };
    }, rounds);
}
