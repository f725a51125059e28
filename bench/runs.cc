// Measures run on documents that are lists of records, with each of the three readers, beside other ways to do the same.
//   runs ROUNDS TURN FOLDER DOCUMENT...   prints the table's rows; leaves in the folder what each made, as
//                                         made/DOCUMENT-READER.PEER, the peers' names, the first one's times, and what was to be
//                                         reached
#include "rounds.h"
#include "transform.h"

#include <cstdio>
#include <fstream>

namespace {

std::vector<Transformer> all_transformers() {
    return {
        runvestol_transformer(),
#ifdef WITH_rapidjson
        rapidjson_transformer(),
#endif
#ifdef WITH_jq
        jq_transformer(),
#endif
    };
}

struct Transforming {
    const Transformer *peer;
    Which reader;
    const Document *document;

    std::string_view operator()() const { return peer->transform(reader, document->bytes.data(), document->length); }
};

void keep(const std::string &path, std::string_view text) {
    std::ofstream out(path, std::ios::binary);
    out.write(text.data(), static_cast<std::streamsize>(text.size()));
    if (!out.flush()) fail("cannot write " + path);
}

std::string column_name(const Document &d, int reader) { return d.name + "-" + "ABC"[reader]; }

// A row for each document and reader, with a call of every peer. What each makes is kept.
std::vector<std::vector<Transforming>> all_calls(const std::vector<Transformer> &peers, const std::vector<Document> &documents,
                                                 const std::string &folder) {
    std::vector<std::vector<Transforming>> calls;
    for (const Document &d : documents) {
        for (int reader = 0; reader < READERS; reader++) {
            calls.emplace_back();
            for (std::size_t p = 0; p < peers.size(); p++) {
                calls.back().push_back({&peers[p], static_cast<Which>(reader), &d});
                std::string_view made = calls.back().back()();
                if (made.empty()) fail(peers[p].name + " refused " + column_name(d, reader));
                keep(folder + "/made/" + column_name(d, reader) + "." + std::to_string(p), made);
            }
        }
    }
    return calls;
}

void print_columns(const std::vector<Document> &documents) {
    std::printf("| ns a document, time relative to ours |");
    for (const Document &d : documents)
        for (int reader = 0; reader < READERS; reader++) std::printf(" %s, %zu B: %c |", d.name.c_str(), d.length, "ABC"[reader]);
    std::printf("\n|---|");
    for (std::size_t i = 0; i < documents.size() * READERS; i++) std::printf("---|");
    std::printf("\n");
}

// How the first one's time stands to the second's, which it was to be ahead of.
std::string reached(const std::string &second, const std::vector<Document> &documents, const std::vector<std::vector<double>> &least) {
    std::string text = "- ahead of " + second + ":";
    for (std::size_t i = 0; i < least.size(); i++) {
        char cell[60];
        double ratio = least[i][0] / least[i][1];
        std::snprintf(cell, sizeof cell, "%s%s (%.2f)", ratio <= 1 ? " " : " NOT on ",
                      column_name(documents[i / READERS], static_cast<int>(i % READERS)).c_str(), ratio);
        text += cell;
    }
    return text + "\n";
}

}  // namespace

int main(int count, char **words) {
    if (count < 5) fail("usage: runs ROUNDS TURN FOLDER DOCUMENT...");
    const std::string folder = words[3];
    std::vector<Transformer> peers = all_transformers();
    std::vector<Document> documents;
    for (int i = 4; i < count; i++) documents.push_back(load(words[i]));
    std::vector<std::vector<double>> least = measure(all_calls(peers, documents, folder), rounds_of(words[1], words[2]));
    print_columns(documents);
    std::string names, times;
    for (std::size_t p = 0; p < peers.size(); p++) {
        std::printf("| %s%s |", peers[p].name.c_str(), peers[p].version.empty() ? "" : (", " + peers[p].version).c_str());
        for (const std::vector<double> &row : least) std::printf(" %.0f ns, %.2f |", row[p], row[p] / row[0]);
        std::printf("\n");
        names += peers[p].name + "\n";
    }
    for (const std::vector<double> &row : least) times += std::to_string(row[0]) + "\n";
    keep(folder + "/names", names);
    keep(folder + "/times", times);
    keep(folder + "/reached", peers.size() < 2 ? "" : reached(peers[1].name, documents, least));
}
