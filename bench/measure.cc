// Measures the peers on the documents named, each of them rewriting every document. Prints a table, and the peers' names to
// standard error, and leaves what each peer made of each document in a folder.
#include "peer.h"
#include "rounds.h"

#include <cstdio>
#include <fstream>

namespace {

struct Rewriting {
    const Peer *peer;
    const Document *document;

    void operator()() const { peer->rewrite(document->bytes.data(), document->length); }
};

std::vector<Peer> all_peers() {
    return {
        runvestol_peer(),
#ifdef WITH_rapidjson
        rapidjson_peer(),
        rapidjson_strings_peer(),
#endif
#ifdef WITH_rapidjson_second
        rapidjson_second_peer(),
#endif
#ifdef WITH_yajl
        yajl_peer(),
#endif
#ifdef WITH_cjson
        cjson_peer(),
#endif
#ifdef WITH_jansson
        jansson_peer(),
#endif
#ifdef WITH_simdjson
        simdjson_peer(),
#endif
        memcpy_peer(),
    };
}

void keep_output(const std::string &folder, const Document &d, std::size_t peer, std::string_view made) {
    std::ofstream out(folder + "/" + d.name + "." + std::to_string(peer), std::ios::binary);
    out.write(made.data(), static_cast<std::streamsize>(made.size()));
    if (!out) fail("cannot write to " + folder);
}

std::vector<std::vector<Rewriting>> all_rewritings(const std::vector<Peer> &peers, const std::vector<Document> &documents) {
    std::vector<std::vector<Rewriting>> calls;
    for (const Document &d : documents) {
        calls.emplace_back();
        for (const Peer &peer : peers) calls.back().push_back({&peer, &d});
    }
    return calls;
}

bool begins(const std::string &text, const std::string &with) { return text.compare(0, with.size(), with) == 0; }

// What was to be reached, of the peers that it speaks of.
void print_goals(const std::vector<Peer> &peers, const std::vector<Document> &documents,
                 const std::vector<std::vector<double>> &least) {
    std::printf("\nTo be reached, with our time relative to the other's:\n\n");
    for (std::size_t p = 0; p < peers.size(); p++) {
        const std::string &name = peers[p].name;
        if (name == "RapidJSON SAX")
            print_reached("under 0.65 of " + name, documents, column(least, 0), column(least, p), {0.65, 0.65});
        if (begins(name, "simdjson"))
            print_reached("ahead of " + name, documents, column(least, 0), column(least, p), {1, 1});
    }
}

}  // namespace

int main(int count, char **words) {
    if (count < 5) fail("usage: measure ROUNDS TURN FOLDER DOCUMENT...");
    Rounds rounds = rounds_of(words[1], words[2]);
    std::vector<Peer> peers = all_peers();
    std::vector<Document> documents;
    for (int i = 4; i < count; i++) documents.push_back(load(words[i]));
    for (const Document &d : documents) {
        for (std::size_t p = 0; p < peers.size(); p++) {
            std::string_view made = peers[p].rewrite(d.bytes.data(), d.length);
            if (made.empty()) fail(peers[p].name + " refused " + d.name);
            keep_output(words[3], d, p, made);
        }
    }
    std::vector<std::vector<double>> least = measure(all_rewritings(peers, documents), rounds);
    print_head("ns a document, MB/s, time relative to ours", documents);
    for (std::size_t p = 0; p < peers.size(); p++) {
        const std::string version = peers[p].version.empty() ? "" : ", " + peers[p].version;
        print_row(peers[p].name + version, documents, column(least, p), column(least, 0));
    }
    print_goals(peers, documents, least);
    for (const Peer &peer : peers) std::fprintf(stderr, "%s\n", peer.name.c_str());
}
