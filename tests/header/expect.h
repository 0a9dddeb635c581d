/*
 * What the tests of the header share: what is not as expected is told of, and the
 * status of the test is then 1.
 */
#ifndef EXPECT_H
#define EXPECT_H

#include <stdio.h>

static int failed;

static void expect(int good, const char *what)
{
    if (good)
        return;
    printf("wrong: %s\n", what);
    failed = 1;
}

#endif
