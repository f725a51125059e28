// Measures the calls on shapes: infer beside plain, and admits beside validators of the equivalent JSON Schema. Each is ready
// for the shape that the document itself gave, as the last of many samples finds it.
//   shapes --infer FOLDER DOCUMENT...       leaves the shape of each document in the folder, as NAME.shape
//   shapes --verdicts FOLDER DOCUMENT...    prints whether all say the same of the documents and of the folder's others, with
//                                           the folder's NAME.shape and NAME.schema
//   shapes ROUNDS TURN FOLDER DOCUMENT...   measures with these; prints the tables, and what was to be reached
#include "rounds.h"
#include "task.h"

#include <cstdio>
#include <cstring>
#include <filesystem>
#include <fstream>

namespace {

using Times = std::vector<double>;

const char nothing[] = "(shape)\n";

std::vector<Caller> all_validators() {
    return {
        admits_caller(),
#ifdef WITH_rapidjson
        validator_caller(),
#endif
#ifdef WITH_rapidjson_second
        validator_second_caller(),
#endif
    };
}

// A shape, as it is handed to each caller.
struct Shape {
    std::string name, text, schema;
};

struct Running {
    Task *task;
    const Document *document;

    void operator()() const { task->run(document->bytes.data(), document->length); }
};

// Callers made ready for each document's own shape, and how long they take.
class Field {
public:
    Field(const std::vector<Caller> &callers, const std::vector<Document> &documents, const std::vector<Shape> &shapes) {
        for (std::size_t i = 0; i < documents.size(); i++) {
            calls.emplace_back();
            for (const Caller &caller : callers) {
                tasks.push_back(caller.ready(shapes[i].text, shapes[i].schema));
                if (!tasks.back()->run(documents[i].bytes.data(), documents[i].length))
                    fail(caller.name + " refused " + documents[i].name);
                calls.back().push_back({tasks.back().get(), &documents[i]});
            }
        }
    }

    void measure_all(Rounds rounds) { least = measure(calls, rounds); }

    // The times of one caller, a document each.
    Times times(std::size_t caller) const { return column(least, caller); }

private:
    std::vector<std::unique_ptr<Task>> tasks;
    std::vector<std::vector<Running>> calls;
    std::vector<Times> least;
};

void print_caller(const Caller &caller, const std::vector<Document> &documents, const Times &times, const Times &others) {
    print_row(caller.name + (caller.version.empty() ? "" : ", " + caller.version), documents, times, others);
}

// Holds the validators to what the first says of every document with every shape.
void print_verdicts(const std::vector<Caller> &validators, const std::vector<Shape> &shapes,
                    const std::vector<Document> &documents) {
    std::vector<std::string> differing(validators.size());
    int yes = 0, no = 0;
    for (const Shape &shape : shapes) {
        for (const Document &d : documents) {
            bool ours = false;
            for (std::size_t v = 0; v < validators.size(); v++) {
                bool admitted = validators[v].ready(shape.text, shape.schema)->run(d.bytes.data(), d.length);
                if (v == 0) ours = admitted;
                if (admitted != ours) differing[v] += " " + d.name + " with the shape of " + shape.name + ";";
            }
            (ours ? yes : no)++;
        }
    }
    std::printf("- %s admits %d and does not admit %d, of %zu documents with each of %zu shapes\n",
                validators[0].name.c_str(), yes, no, documents.size(), shapes.size());
    for (std::size_t v = 1; v < validators.size(); v++) {
        std::string verdict = differing[v].empty() ? "the same verdict on each" : "ANOTHER VERDICT:" + differing[v];
        std::printf("- %s: %s\n", validators[v].name.c_str(), verdict.c_str());
    }
}

std::vector<Document> others_in(const std::string &folder) {
    std::vector<std::string> paths;
    for (const auto &entry : std::filesystem::directory_iterator(folder))
        if (entry.path().extension() == ".json") paths.push_back(entry.path().string());
    std::sort(paths.begin(), paths.end());
    std::vector<Document> others;
    for (const std::string &path : paths) others.push_back(load(path));
    return others;
}

std::string shape_of(const Document &d) {
    std::string shape = inferred(nothing, d.bytes.data(), d.length);
    if (shape.empty()) fail("infer refused " + d.name);
    if (inferred(shape, d.bytes.data(), d.length) != shape) fail("infer does not stay at the shape of " + d.name);
    return shape;
}

void leave_shapes(const std::string &folder, const std::vector<Document> &documents) {
    for (const Document &d : documents) {
        std::ofstream out(folder + "/" + d.name + ".shape", std::ios::binary);
        out << shape_of(d);
        if (!out.flush()) fail("cannot write to " + folder);
    }
}

std::vector<Shape> shapes_in(const std::string &folder, const std::vector<Document> &documents) {
    std::vector<Shape> shapes;
    for (const Document &d : documents) {
        std::string path = folder + "/" + d.name;
        shapes.push_back({d.name, load_text(path + ".shape"), load_text(path + ".schema")});
    }
    return shapes;
}

void print_goals(const std::vector<Caller> &callers, const std::vector<Document> &documents, const Field &field) {
    std::printf("\nTo be reached, with our time relative to the other's:\n\n");
    for (std::size_t c = 3; c < callers.size(); c++) {
        print_reached("`admits` under 0.95 of " + callers[c].name + " on a record of 200 bytes, under 0.6 else", documents,
                      field.times(2), field.times(c), {0.95, 0.6});
        print_reached("`infer` not slower than " + callers[c].name + " on a record of 200 bytes, under 0.65 else", documents,
                      field.times(1), field.times(c), {1, 0.65});
    }
}

// The callers in order: plain, infer, admits, and the validators that admits is held to.
void report(Rounds rounds, const std::vector<Document> &documents, const std::vector<Shape> &shapes) {
    std::vector<Caller> callers = all_validators();
    callers.insert(callers.begin(), {plain_caller(), infer_caller()});
    Field field(callers, documents, shapes);
    field.measure_all(rounds);
    print_head("ns a document, MB/s, time relative to that of admits", documents);
    for (std::size_t c = 0; c < callers.size(); c++) print_caller(callers[c], documents, field.times(c), field.times(2));
    print_goals(callers, documents, field);
}

void verdicts(const std::string &folder, const std::vector<Document> &documents, const std::vector<Shape> &shapes) {
    std::vector<Document> judged = others_in(folder);
    judged.insert(judged.begin(), documents.begin(), documents.end());
    print_verdicts(all_validators(), shapes, judged);
}

std::vector<Document> loaded(char **first, char **last) {
    std::vector<Document> documents;
    for (char **word = first; word < last; word++) documents.push_back(load(*word));
    return documents;
}

}  // namespace

int main(int count, char **words) {
    if (count < 5) fail("usage: shapes --infer|--verdicts|ROUNDS TURN FOLDER DOCUMENT...");
    bool marked = words[1][0] == '-';
    std::string folder = words[marked ? 2 : 3];
    std::vector<Document> documents = loaded(words + (marked ? 3 : 4), words + count);
    if (std::strcmp(words[1], "--infer") == 0)
        leave_shapes(folder, documents);
    else if (marked)
        verdicts(folder, documents, shapes_in(folder, documents));
    else
        report(rounds_of(words[1], words[2]), documents, shapes_in(folder, documents));
}
