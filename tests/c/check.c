/* See check.h. */
#include "check.h"

#include <inttypes.h>
#include <stdarg.h>
#include <stdio.h>

static const unsigned long TOLD = 20;

static unsigned long checks, wrong;

bool check_number(const char *file, int line, const char *what, uint64_t got, uint64_t expected)
{
    checks++;
    if (got == expected)
        return true;
    if (wrong++ < TOLD)
        fprintf(stderr, "%s:%d: %s is %" PRIu64 " (%" PRIX64 "H), expected %" PRIu64 " (%" PRIX64 "H)\n", file, line, what, got,
                got, expected, expected);
    return false;
}

void check_note(const char *format, ...)
{
    va_list arguments;

    if (wrong > TOLD)
        return;
    va_start(arguments, format);
    vfprintf(stderr, format, arguments);
    va_end(arguments);
}

int check_report(const char *name)
{
    printf("%s: %lu checks, %lu wrong\n", name, checks, wrong);
    return wrong != 0;
}
