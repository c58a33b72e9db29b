/* A small test framework: CHECK and CHECK_EQUAL count, the first failures are printed, check_report ends a program. */
#ifndef CHECK_H
#define CHECK_H

#include <stdio.h>

static long checks_passed, checks_failed;

static void check_failed(const char *file, int line, const char *text)
{
    if (checks_failed++ < 20) printf("%s:%d: failed: %s\n", file, line, text);
}

static inline void check_that(int holds, const char *file, int line, const char *text)
{
    if (holds) checks_passed++; else check_failed(file, line, text);
}

static inline void check_equal(long long is, long long wanted, const char *file, int line, const char *text)
{
    if (is == wanted) { checks_passed++; return; }
    if (checks_failed < 20) printf("%s:%d: %lld, and wanted %lld\n", file, line, is, wanted);
    check_failed(file, line, text);
}

#define CHECK(holds)            check_that((holds) != 0, __FILE__, __LINE__, #holds)
#define CHECK_EQUAL(is, wanted) check_equal((long long)(is), (long long)(wanted), __FILE__, __LINE__, #is " == " #wanted)

/* Prints the counts, and gives the exit status. */
static inline int check_report(const char *name)
{
    printf("%s: %ld checks, %ld failed\n", name, checks_passed + checks_failed, checks_failed);
    return checks_failed != 0;
}

#endif
