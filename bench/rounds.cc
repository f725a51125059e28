#include "rounds.h"
#include "peer.h"

#include <chrono>
#include <cstdio>
#include <cstdlib>
#include <fstream>
#include <iterator>

double nanoseconds() {
    auto now = std::chrono::steady_clock::now().time_since_epoch();
    return std::chrono::duration<double, std::nano>(now).count();
}

void fail(const std::string &what) {
    std::fprintf(stderr, "bench: %s\n", what.c_str());
    std::exit(1);
}

Rounds rounds_of(const char *count, const char *turn) { return {std::atoi(count), std::atof(turn)}; }

std::string load_text(const std::string &path) {
    std::ifstream in(path, std::ios::binary);
    if (!in) fail("cannot read " + path);
    return std::string((std::istreambuf_iterator<char>(in)), {});
}

Document load(const std::string &path) {
    std::string bytes = load_text(path);
    std::size_t length = bytes.size();
    if (ROOM < length) fail(path + " is too long");
    bytes.append(64, '\0');
    std::size_t name = path.rfind('/') + 1;
    return {path.substr(name, path.rfind('.') - name), bytes, length};
}

std::vector<double> column(const std::vector<std::vector<double>> &least, std::size_t at) {
    std::vector<double> times;
    for (const std::vector<double> &row : least) times.push_back(row[at]);
    return times;
}

void print_head(const std::string &cells, const std::vector<Document> &documents) {
    std::printf("| %s |", cells.c_str());
    for (const Document &d : documents) std::printf(" %s, %zu B |", d.name.c_str(), d.length);
    std::printf("\n|---|");
    for (std::size_t i = 0; i < documents.size(); i++) std::printf("---|");
    std::printf("\n");
}

void print_row(const std::string &who, const std::vector<Document> &documents, const std::vector<double> &times,
               const std::vector<double> &others) {
    std::printf("| %s |", who.c_str());
    for (std::size_t i = 0; i < documents.size(); i++) {
        double speed = 1000.0 * static_cast<double>(documents[i].length) / times[i];
        std::printf(" %.0f ns, %.0f MB/s, %.2f |", times[i], speed, times[i] / others[i]);
    }
    std::printf("\n");
}

void print_reached(const std::string &what, const std::vector<Document> &documents, const std::vector<double> &times,
                   const std::vector<double> &others, Goal goal) {
    std::string within, beyond;
    for (std::size_t i = 0; i < documents.size(); i++) {
        char ratio[40];
        std::snprintf(ratio, sizeof ratio, " (%.2f)", times[i] / others[i]);
        double most = documents[i].length <= 300 ? goal.small : goal.large;
        std::string &list = times[i] <= most * others[i] ? within : beyond;
        list += (list.empty() ? "" : ", ") + documents[i].name + ratio;
    }
    std::printf("- %s: ", what.c_str());
    if (!within.empty())
        std::printf("so on %s%s", within.c_str(), beyond.empty() ? "\n" : "; ");
    if (!beyond.empty())
        std::printf("NOT on %s\n", beyond.c_str());
}
