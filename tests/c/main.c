/* tests SEED [FILE.tsv LEFT-OUT]...: runs the suites and the vector files through the header, of each of which so many rows are
   left out. Last line `N passed, M failed`. */
#include <stdio.h>
#include <stdlib.h>

#include "check.h"
#include "suites.h"
#include "vectors.h"

int main(int count, char **words)
{
    if (count < 4 || count % 2 != 0) {
        fputs("usage: tests SEED [FILE.tsv LEFT-OUT]...\n", stderr);
        return 2;
    }
    catch_walls();
    seed_with(strtoull(words[1], NULL, 10));
    plain_suite();
    shapes_suite();
    readers_suite();
    chain_suite();
    buffers_suite();
    sizes_suite();
    limits_suite();
    reader_limits_suite();
    run_limits_suite();
    tiers_suite();
    sets_suite();
    stack_suite();
    for (int i = 2; i < count; i += 2)
        run_vectors(words[i], atoi(words[i + 1]));
    return tally();
}
