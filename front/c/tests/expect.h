/* What the tests here count and say. */
#ifndef EXPECT_H
#define EXPECT_H

#include <errno.h>
#include <stdatomic.h>
#include <stdio.h>
#include <stdlib.h>
#include <unistd.h>

/* Seconds after which a test is ended that hangs. */
enum { PATIENCE = 500 };

static atomic_long passed;
static atomic_long failed;

static inline void expect(int line, const char *what, long long found, long long wanted)
{
    if (found == wanted) {
        atomic_fetch_add(&passed, 1);
    } else {
        atomic_fetch_add(&failed, 1);
        printf("FAILED: line %d: %s is %lld, and not %lld\n", line, what, found, wanted);
    }
}

/* Counts whether a value is the wanted one. */
#define EXPECT(value, wanted) expect(__LINE__, #value, (long long)(value), (long long)(wanted))

/* The last line of a test, and its status. */
static inline int finish(const char *name)
{
    printf("%s: %ld passed, %ld failed\n", name, atomic_load(&passed), atomic_load(&failed));
    return atomic_load(&failed) != 0;
}

#endif
