// Measures check on readers and shapes: NAME.reader against NAME.shape of a folder, beside admits of NAME.json on that shape.
// What reading both texts takes is measured by the same reader with a part in front that is refused at once, so that both
// are read to their ends and nothing more is done.
//   readers ROUNDS TURN FOLDER NAME...   prints the table, and what was to be reached
#include "peer.h"
#include "rounds.h"
#include "runvestol.h"

#include <cstdio>

namespace {

uint8_t output[ROOM];
uint8_t answer[RUNVESTOL_ANSWER_BYTES];

const uint8_t *bytes_of(const std::string &text) { return reinterpret_cast<const uint8_t *>(text.data()); }

uint64_t check(const std::string &reader, const std::string &shape) {
    return runvestol_check(RUNVESTOL_LARGEST, bytes_of(reader), reader.size(), bytes_of(shape), shape.size(), output, sizeof output, answer,
                           sizeof answer);
}

uint64_t admits(const std::string &shape, const std::string &document) {
    return runvestol_admits(RUNVESTOL_LARGEST, bytes_of(shape), shape.size(), bytes_of(document), document.size(), answer, sizeof answer);
}

// One of the three calls on the texts of a row.
struct Calling {
    enum { CHECK, READ, ADMITS } what;
    const std::string *reader, *shape, *document;

    uint64_t operator()() const { return what == ADMITS ? admits(*shape, *document) : check(*reader, *shape); }
};

struct Row {
    std::string name, reader, refused, shape, document;

    Row(const std::string &folder, const std::string &called)
        : name(called), reader(load_text(folder + "/" + called + ".reader")), refused("(pack\"\"(int(it 0))\"-\"" + reader + ")"),
          shape(load_text(folder + "/" + called + ".shape")), document(load_text(folder + "/" + called + ".json")) {
        if (check(reader, shape) != RUNVESTOL_OK) fail("check refused " + name);
        if (check(refused, shape) != RUNVESTOL_UNWANTED_KIND) fail("check does not refuse at once: " + name);
        if (admits(shape, document) != RUNVESTOL_OK || answer[RUNVESTOL_YES_AT] != 1) fail("the document of " + name + " is not admitted");
    }

    std::vector<Calling> calls() const {
        return {{Calling::CHECK, &reader, &shape, &document},
                {Calling::READ, &refused, &shape, &document},
                {Calling::ADMITS, &reader, &shape, &document}};
    }
};

std::size_t forms(const std::string &text, const std::string &open) {
    std::size_t count = 0;
    for (std::size_t at = text.find(open); at != std::string::npos; at = text.find(open, at + 1)) count++;
    return count;
}

void print_table(const std::vector<Row> &rows, const std::vector<std::vector<double>> &least) {
    std::printf("| reader and shape | forms | bytes | **runvestol_check** | of it reading both | **runvestol_admits**, same shape |\n");
    std::printf("|---|---|---|---|---|---|\n");
    for (std::size_t i = 0; i < rows.size(); i++) {
        const Row &row = rows[i];
        const std::vector<double> &t = least[i];
        std::printf("| %s | %zu, %zu | %zu, %zu | %.0f ns | %.0f ns, %.2f | %.0f ns, document of %zu B |\n", row.name.c_str(),
                    forms(row.reader, "("), forms(row.shape, "(shape"), row.reader.size(), row.shape.size(), t[0], t[1], t[1] / t[0],
                    t[2], row.document.size());
    }
}

void print_reached(const std::vector<Row> &rows, const std::vector<std::vector<double>> &least) {
    std::printf("\nTo be reached:\n\n");
    for (std::size_t i = 0; i < rows.size(); i++) {
        bool large = forms(rows[i].reader, "(") > 400;
        bool reached = large ? least[i][0] < 1e6 : least[i][1] > least[i][0] / 2;
        std::printf("- %s: %s: %s\n", rows[i].name.c_str(), large ? "under 1 ms" : "reading is most of the time", reached ? "so" : "NOT SO");
    }
}

}  // namespace

int main(int count, char **words) {
    if (count < 5) fail("usage: readers ROUNDS TURN FOLDER NAME...");
    std::vector<Row> rows;
    for (int i = 4; i < count; i++) rows.emplace_back(words[3], words[i]);
    std::vector<std::vector<Calling>> calls;
    for (const Row &row : rows) calls.push_back(row.calls());
    std::vector<std::vector<double>> least = measure(calls, rounds_of(words[1], words[2]));
    print_table(rows, least);
    print_reached(rows, least);
}
