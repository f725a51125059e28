// What is measured of shapes: one call on documents, made ready beforehand for a shape.
#ifndef BENCH_TASK_H
#define BENCH_TASK_H

#include <cstddef>
#include <memory>
#include <string>

struct Task {
    virtual ~Task() = default;
    // Lends a document of so many bytes, with a zero behind it; says whether it was read, and admitted where that is asked.
    virtual bool run(const char *document, std::size_t length) = 0;
};

struct Caller {
    std::string name;
    std::string version;
    // Gets ready for a shape, given as its text and as the equivalent JSON Schema. This is not timed.
    std::unique_ptr<Task> (*ready)(const std::string &shape, const std::string &schema);
};

Caller plain_caller();
Caller infer_caller();
Caller admits_caller();
Caller validator_caller();
Caller validator_second_caller();

// The text that infer writes for a shape and a document; none where it refuses them.
std::string inferred(const std::string &shape, const char *document, std::size_t length);

#endif
