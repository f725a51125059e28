// Measures plain, infer and admits by the length of the document: ns a byte for documents of one kind at each size, with the
// shape that the document itself gave.
//   sizes ROUNDS TURN FOLDER KIND...   measures the folder's KIND-1.json to KIND-16.json; prints the table
#include "rounds.h"
#include "task.h"

#include <cstdio>

namespace {

const char nothing[] = "(shape)\n";
const char *const kilobytes[] = {"1", "2", "4", "8", "16"};

struct Running {
    Task *task;
    const Document *document;

    void operator()() const { task->run(document->bytes.data(), document->length); }
};

// A shape text without its line feeds and the spaces behind them, which takes no form from it.
std::string compact(const std::string &shape) {
    std::string text;
    for (std::size_t i = 0; i < shape.size(); i++) {
        if (shape[i] != '\n')
            text += shape[i];
        else
            while (shape[i + 1] == ' ') i++;
    }
    return text;
}

// A row for each size of a kind and each caller of one call.
struct Kind {
    std::string name;
    std::vector<Document> documents;
    std::vector<std::unique_ptr<Task>> tasks;
    std::vector<std::vector<Running>> calls;

    Kind(const std::string &folder, std::string called, const std::vector<Caller> &callers) : name(std::move(called)) {
        for (const char *size : kilobytes) documents.push_back(load(folder + "/" + name + "-" + size + ".json"));
        for (const Document &d : documents) {
            std::string shape = compact(inferred(nothing, d.bytes.data(), d.length));
            calls.emplace_back();
            for (const Caller &caller : callers) {
                tasks.push_back(caller.ready(shape, ""));
                if (!tasks.back()->run(d.bytes.data(), d.length)) fail(caller.name + " refused " + d.name);
                calls.back().push_back({tasks.back().get(), &d});
            }
        }
    }
};

}  // namespace

int main(int count, char **words) {
    if (count < 5) fail("usage: sizes ROUNDS TURN FOLDER KIND...");
    const std::vector<Caller> callers = {plain_caller(), infer_caller(), admits_caller()};
    std::printf("| ns a byte |");
    for (const char *size : kilobytes) std::printf(" %s KB |", size);
    std::printf("\n|---|---|---|---|---|---|\n");
    for (int i = 4; i < count; i++) {
        Kind kind(words[3], words[i], callers);
        std::vector<std::vector<double>> least = measure(kind.calls, rounds_of(words[1], words[2]));
        for (std::size_t c = 0; c < callers.size(); c++) {
            std::printf("| %s, %s |", kind.name.c_str(), callers[c].name.c_str());
            for (std::size_t d = 0; d < kind.documents.size(); d++)
                std::printf(" %.2f |", least[d][c] / static_cast<double>(kind.documents[d].length));
            std::printf("\n");
        }
    }
}
