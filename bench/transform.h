// What is measured of runs: a way to make one JSON document of another, as one of three readers says.
#ifndef BENCH_TRANSFORM_H
#define BENCH_TRANSFORM_H

#include <cstddef>
#include <string>
#include <string_view>

// A (project): serial and bay of each record, 0 for a bay of null. B (branch): the bay of each record in service, -1 where it
// is no number, and null of the others. C (copy): how many records there are, and all of them.
enum Which { PROJECT, BRANCH, COPY, READERS };

struct Transformer {
    std::string name;
    std::string version;
    // Lends a document of so many bytes; another 64 zero bytes can be read behind it. What it makes stays until the next
    // call; an empty text says that it refused the document.
    std::string_view (*transform)(Which reader, const char *document, std::size_t length);
};

Transformer runvestol_transformer();
Transformer rapidjson_transformer();
Transformer jq_transformer();

#endif
