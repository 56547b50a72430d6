/* What the tests of the C interface share: a count of what was tried and of what failed. A test's last line is
 * `N passed, M failed`. */
#ifndef CHECK_H
#define CHECK_H

#include <inttypes.h>
#include <stdbool.h>
#include <stdio.h>

static int check_passed, check_failed;

/* Counts one try, and tells where it failed. */
static inline bool check(bool holds, const char *what, const char *file, int line) {
    check_passed += holds;
    check_failed += !holds;
    if (!holds)
        printf("%s:%d: %s\n", file, line, what);
    return holds;
}

#define CHECK(holds) check((holds), #holds, __FILE__, __LINE__)

/* The answer has this status and this value. */
#define ANSWERS(given, wanted_status, wanted_value)                                                              \
    do {                                                                                                         \
        struct vtdm_answer check_given = (given);                                                                \
        if (!check(check_given.status == (wanted_status) && check_given.value == (wanted_value), #given, __FILE__, \
                   __LINE__))                                                                                    \
            printf("    status %" PRIu64 ", value %#" PRIx64 "\n", check_given.status, check_given.value);       \
    } while (0)

static inline int check_end(void) {
    printf("%d passed, %d failed\n", check_passed, check_failed);
    return check_failed != 0;
}

#endif
