/* The checks of the examples' tests: each is printed, and one that fails is named on standard error too. */
#ifndef CHECK_H
#define CHECK_H

#include <stdbool.h>
#include <stdio.h>

static int failures;

static void check(bool holds, const char *what)
{
    printf("%s %s\n", holds ? "ok    " : "FAILED", what);
    if (!holds) {
        fprintf(stderr, "FAILED %s\n", what);
        failures++;
    }
}

/* The exit status of the test: 1 if a check failed. */
static int all_checked(void)
{
    printf("%d checks failed\n", failures);
    return failures == 0 ? 0 : 1;
}

#endif
