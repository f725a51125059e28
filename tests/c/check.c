#define _POSIX_C_SOURCE 200809L
#define _XOPEN_SOURCE 700
#include "check.h"

#include <inttypes.h>
#include <signal.h>
#include <stdio.h>
#include <string.h>
#include <unistd.h>

static int passed, failed;
static const char *current = "before the first case";
static bool fine;

/* A call that reaches past what is lent to it runs into a wall. Only what may be called in a handler is called. */
static void on_wall(int signal)
{
    static const char words[] = ": reached memory that it was not lent\n";
    (void)signal;
    ssize_t ignored = write(STDOUT_FILENO, current, strlen(current));
    ignored = write(STDOUT_FILENO, words, sizeof words - 1);
    (void)ignored;
    _exit(1);
}

/* The handler's own stack; a sanitizer may have set one already. */
static void set_signal_stack(void)
{
    static uint8_t stack[64 * 1024];
    const stack_t ours = {.ss_sp = stack, .ss_size = sizeof stack};
    stack_t set;
    if (sigaltstack(NULL, &set) == 0 && (set.ss_flags & SS_DISABLE) != 0)
        sigaltstack(&ours, NULL);
}

void catch_walls(void)
{
    struct sigaction action = {.sa_handler = on_wall, .sa_flags = SA_ONSTACK};
    set_signal_stack();
    sigaction(SIGSEGV, &action, NULL);
    sigaction(SIGBUS, &action, NULL);
}

void case_begin(const char *name)
{
    current = name;
    fine = true;
}

void case_end(void)
{
    if (fine)
        passed++;
    else
        failed++;
    current = "between two cases";
    fflush(stdout);
}

void run_case(const char *name, void (*body)(void))
{
    case_begin(name);
    body();
    case_end();
}

void expect(bool holds, const char *what, const char *file, int line)
{
    if (holds)
        return;
    if (fine)
        printf("failed: %s\n", current);
    printf("  not so (%s:%d): %s\n", file, line, what);
    fine = false;
}

int tally(void)
{
    printf("%d passed, %d failed\n", passed, failed);
    return failed == 0 && passed > 0 ? 0 : 1;
}

static uint64_t state = 1;

void seed_with(uint64_t seed)
{
    printf("seed %" PRIu64 "\n", seed);
    state = seed;
}

/* splitmix64 */
uint8_t random_byte(void)
{
    uint64_t z = state += 0x9E3779B97F4A7C15u;
    z = (z ^ z >> 30) * 0xBF58476D1CE4E5B9u;
    z = (z ^ z >> 27) * 0x94D049BB133111EBu;
    return (uint8_t)(z >> 56);
}
