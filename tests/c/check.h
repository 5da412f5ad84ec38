/* Counts what a test checks and says on stderr where the first wrong ones are. */
#ifndef CHECK_H
#define CHECK_H

#include <stdbool.h>
#include <stdint.h>

/* Is the number as expected? */
bool check_number(const char *file, int line, const char *what, uint64_t got, uint64_t expected);

#define SAME(got, expected) check_number(__FILE__, __LINE__, #got, (got), (expected))
#define HOLDS(condition) check_number(__FILE__, __LINE__, #condition, (condition) != 0, 1)

/* Adds to what was said last, as long as wrong ones are still told. */
void check_note(const char *format, ...);

/* Prints the test's one line and gives its exit status. */
int check_report(const char *name);

#endif
