/* holds: counts what a program tests, and prints what does not hold with its line in the file. */
#include <stdbool.h>
#include <stdio.h>

static unsigned tests, good;

static void test(int line, const char *what, bool holds) {
    tests++;
    good += holds;
    if (!holds)
        printf("  line %d: not so: %s\n", line, what);
}
#define HOLDS(what) test(__LINE__, #what, what)
