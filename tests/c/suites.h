/* The suites of cases, each in a file of its own. */
#ifndef SUITES_H
#define SUITES_H

void plain_suite(void);
void shapes_suite(void);
void readers_suite(void);
void chain_suite(void);
void buffers_suite(void);
void sizes_suite(void);
void limits_suite(void);
void reader_limits_suite(void);
void run_limits_suite(void);
void tiers_suite(void);
void sets_suite(void);
void stack_suite(void);

#endif
