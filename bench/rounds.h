// Measuring in rounds: in each, every call has its turn, in which it is made a few times. What counts is its fastest round.
// In short turns a call finds the caches and the branch predictors as the others left them; in long ones they are its own.
#ifndef BENCH_ROUNDS_H
#define BENCH_ROUNDS_H

#include <algorithm>
#include <cmath>
#include <cstddef>
#include <string>
#include <vector>

struct Document {
    std::string name;
    std::string bytes;  // with zeros behind them
    std::size_t length;
};

[[noreturn]] void fail(const std::string &what);

std::string load_text(const std::string &path);
Document load(const std::string &path);

double nanoseconds();

// The time of one call, over so many of them.
template <class Call>
double timed(const Call &call, int times) {
    double start = nanoseconds();
    for (int i = 0; i < times; i++) call();
    return (nanoseconds() - start) / times;
}

// How many rounds there are, and how long a turn takes, in nanoseconds.
struct Rounds {
    int count;
    double turn;
};

// Of two words of a command line.
Rounds rounds_of(const char *count, const char *turn);

// How often a call is made in a turn.
template <class Call>
int times_for(const Call &call, double turn) {
    return std::max(1, static_cast<int>(turn / timed(call, 20)));
}

// The fastest round of each call, in nanoseconds. Calls stand in rows, one for each document.
template <class Call>
std::vector<std::vector<double>> measure(const std::vector<std::vector<Call>> &calls, Rounds rounds) {
    std::vector<std::vector<int>> times;
    std::vector<std::vector<double>> least;
    for (const std::vector<Call> &row : calls) {
        times.emplace_back();
        for (const Call &call : row) times.back().push_back(times_for(call, rounds.turn));
        least.emplace_back(row.size(), INFINITY);
    }
    for (int round = 0; round < rounds.count; round++)
        for (std::size_t i = 0; i < calls.size(); i++)
            for (std::size_t p = 0; p < calls[i].size(); p++)
                least[i][p] = std::min(least[i][p], timed(calls[i][p], times[i][p]));
    return least;
}

// The times of one call of each row.
std::vector<double> column(const std::vector<std::vector<double>> &least, std::size_t at);

// A table's first lines: what its cells say, and the documents.
void print_head(const std::string &cells, const std::vector<Document> &documents);

// A row of it: who, and for each document the time, the speed, and the time relative to another's.
void print_row(const std::string &who, const std::vector<Document> &documents, const std::vector<double> &times,
               const std::vector<double> &others);

// At most so much of another's time: on documents of up to 300 bytes, and on longer ones.
struct Goal {
    double small, large;
};

// Which documents reach a goal and which do not, with our time relative to the other's.
void print_reached(const std::string &what, const std::vector<Document> &documents, const std::vector<double> &times,
                   const std::vector<double> &others, Goal goal);

#endif
