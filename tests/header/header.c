/*
 * The header's own functions. The file is C11 and C++17 at once; it is built as
 * both.
 */
#include "changeover.h"
#include "expect.h"

#include <string.h>

static void test_answers(void)
{
    uint64_t answer =
        (uint64_t)CHANGEOVER_GOAL_MISSED << 48 | (uint64_t)0xfffd << 32 | 0xfffffffeu;

    expect(changeover_number(answer) == 20, "number");
    expect(changeover_place(answer) == 0xfffffffeu, "place");
    expect(changeover_position(answer) == 0xfffdu, "position");
    expect(changeover_position(~((uint64_t)0xffff << 32)) == 0, "no position");
    expect(!changeover_ok(answer), "a refusal is not ok");
    expect(changeover_ok(4096), "success is ok whatever its place");
}

static void test_version(void)
{
    char parts[32];

    snprintf(parts, sizeof parts, "%d.%d.%d", CHANGEOVER_VERSION_MAJOR, CHANGEOVER_VERSION_MINOR,
             CHANGEOVER_VERSION_PATCH);
    expect(strcmp(parts, CHANGEOVER_VERSION_STRING) == 0, "version as text");
#if CHANGEOVER_VERSION < 4000000 || CHANGEOVER_VERSION >= 5000000
    expect(0, "version as a number");
#endif
}

/* Every number has words of its own, and no other number has any; there is no 25 and no 26. */
static void test_words(void)
{
    const unsigned last = CHANGEOVER_ALL_NEEDS_MET;
    const char *none = changeover_words((enum changeover_numbers)(last + 1));

    expect(last == 28, "the last number");
    expect(strcmp(none, "no such number") == 0, "a number beyond the last");
    for (unsigned one = 0; one <= last; one++) {
        const char *words = changeover_words((enum changeover_numbers)one);
        int missing = one == 25 || one == 26;

        expect((strcmp(words, none) == 0) == missing, "which numbers have words");
        if (missing)
            continue;
        for (unsigned other = 0; other < one; other++)
            expect(strcmp(words, changeover_words((enum changeover_numbers)other)) != 0,
                   "two numbers with the same words");
    }
}

/* The longest good order: header, objects, starts of a count and 256 facts, entries, steps. */
static void test_order_max(void)
{
    expect(CHANGEOVER_ORDER_MAX ==
               16 + 16 + CHANGEOVER_STARTS_MAX * (2 + 256 * 3) + 64 * 4 + 64 * 5,
           "the longest order");
}

static void test_sheet_len(void)
{
    uint8_t book[16] = {0};

    expect(changeover_sheet_len(book, 15) == 0, "too short a book");
    expect(changeover_sheet_len(NULL, 0) == 0, "no book");
    expect(changeover_sheet_len(book, 16) == 0, "no moves");
    book[5] = 32;
    expect(changeover_sheet_len(book, 16) == CHANGEOVER_SHEET_MAX, "32 moves");
    book[5] = 33;
    expect(changeover_sheet_len(book, 16) == 0, "33 moves");
    book[5] = 1;
    book[4] = 1;
    expect(changeover_sheet_len(book, 16) == 0, "257 moves");
}

/* Each bit alone, so that only the right numbers find it. */
static void test_sets(void)
{
    uint8_t sheet[2 * CHANGEOVER_RULES_LEN] = {0}, end[CHANGEOVER_END_LEN] = {0};

    sheet[128 + 2 * 32 + 3] = 1; /* move 2, added, n = 24: relation 2, parameter 3 */
    expect(changeover_in_rules(sheet, 2, CHANGEOVER_ADDED, 2, 3, 0), "relation of one place");
    expect(!changeover_in_rules(sheet, 1, CHANGEOVER_ADDED, 2, 3, 0), "another move");
    expect(!changeover_in_rules(sheet, 2, CHANGEOVER_REMOVED, 2, 3, 0), "another set");
    expect(!changeover_in_rules(sheet, 2, CHANGEOVER_ADDED, 2, 2, 0), "another parameter");
    sheet[255] = 0x80; /* move 2, removed, n = 255 */
    expect(changeover_in_rules(sheet, 2, CHANGEOVER_REMOVED, 16, 4, 4), "the last bound fact");
    sheet[0] = 1; /* move 1, needed to hold, n = 0 */
    expect(changeover_in_rules(sheet, 1, CHANGEOVER_NEEDED_TO_HOLD, 1, 0, 0), "no places");

    end[511] = 0x80;
    expect(changeover_in_end(end, 16, 16, 16), "the last fact");
    expect(!changeover_in_end(end, 16, 16, 15), "another object");
    end[32 + 4] = 1; /* fact 256 + 32: relation 2, object 3 */
    expect(changeover_in_end(end, 2, 3, 0), "fact of one place");
}

int main(void)
{
    test_answers();
    test_version();
    test_words();
    test_order_max();
    test_sheet_len();
    test_sets();
    return failed;
}
