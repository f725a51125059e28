/* Counting cases. A case has a name that reads as a sentence, and passes where everything that it expects holds. */
#ifndef CHECK_H
#define CHECK_H

#include <stdbool.h>
#include <stddef.h>
#include <stdint.h>

/* Between these two, an expectation that fails fails the case once, and is printed with the case's name. */
void case_begin(const char *name);
void case_end(void);

void run_case(const char *name, void (*body)(void));
#define RUN(name) run_case(#name, name)

void expect(bool holds, const char *what, const char *file, int line);
#define EXPECT(what) expect((what), #what, __FILE__, __LINE__)

/* From here on this thread's case is named where a call runs into a wall, also where its stack is used up. */
void catch_walls(void);

/* Prints `N passed, M failed`, and gives the status to exit with. */
int tally(void);

/* A byte of random filling, from a seed that seed_with sets and prints. */
void seed_with(uint64_t seed);
uint8_t random_byte(void);

#endif
