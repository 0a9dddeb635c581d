/*
 * The calls as the header declares them, on the smallest books and orders: that
 * each links, both forms of a book, the converters, steps that did not go, several
 * starts, and what the header says of lent memory. The file is C11 and C++17 at
 * once; it is built as both.
 */
#include "changeover.h"
#include "expect.h"

#include <string.h>

static int all_are(const uint8_t *bytes, size_t count, uint8_t byte)
{
    return bytes[0] == byte && memcmp(bytes, bytes + 1, count - 1) == 0;
}

/* The answer of a refusal without a position. */
static uint64_t refusal(enum changeover_numbers number, uint32_t place)
{
    return (uint64_t)number << 48 | place;
}

/*
 * The shortest book: no kinds, relations, moves or records. The shortest order:
 * one start without facts.
 */
static const uint8_t bare[16] = {0, 0, 0, 0, 0, 0, 0, 0, 0, 16, 0, 16, 0, 16, 0, 16};
static const uint8_t bare_order[18] = {0, 0, 0, 1, 0, 0, 0, 0, 0, 16, 0, 16, 0, 18, 0, 18, 0, 0};

/*
 * A move without parameters, and a record of one step of it between two states
 * without facts. The first 22 bytes are a book by themselves if the record count
 * and the end say so.
 */
static const uint8_t one_step[35] = {
    0, 0, 0, 0, 0, 1, 0, 1, 0, 16, 0, 16, 0, 22, 0, 35, /* header */
    0, 0, 0, 0, 0, 0,                                   /* move */
    0, 1, 0, 13, 0, 0, 1, 0, 0, 0, 0, 0, 0,             /* a record */
};

static void test_calls(void)
{
    uint8_t end[CHANGEOVER_END_LEN], out[22];
    const size_t len = sizeof bare;

    expect(changeover_look_over(bare, len, CHANGEOVER_FULL) == 0, "look over");
    expect(changeover_learn(bare, len, CHANGEOVER_FULL, NULL, 0) == 0, "learn");
    memset(end, 0xff, sizeof end);
    expect(changeover_check(bare, len, CHANGEOVER_FULL, bare_order, sizeof bare_order, end,
                            sizeof end) == 0,
           "check");
    expect(all_are(end, sizeof end, 0), "end sheet");
    expect(changeover_check(bare, len, CHANGEOVER_FULL, NULL, 0, end, sizeof end) ==
               refusal(CHANGEOVER_ORDER_HEADER, 0),
           "no order");
    expect(changeover_add(bare, len, CHANGEOVER_FULL, NULL, 0, NULL, 0) ==
               refusal(CHANGEOVER_RECORD, 16),
           "no record");
    expect(changeover_to_short(bare, len, out, sizeof out) == len, "to short");
    expect(changeover_to_full(bare, len, out, sizeof out) == len, "to full");
    expect(memcmp(out, bare, len) == 0, "a book without records converted");
}

/* A record is added to a book that has none; one without steps is not. */
static void test_records(void)
{
    static const uint8_t without_steps[6] = {0, 0, 0, 6, 0, 0};
    uint8_t book[22], out[35];

    memcpy(book, one_step, sizeof book);
    book[7] = 0;
    book[15] = sizeof book;
    memset(out, 0xa7, sizeof out);
    expect(changeover_add(book, sizeof book, CHANGEOVER_FULL, without_steps, sizeof without_steps,
                          out, sizeof out) == refusal(CHANGEOVER_NO_STEPS, sizeof book),
           "a record without steps");
    expect(all_are(out, sizeof out, 0xa7), "a refusal writes nothing");
    expect(changeover_add(book, sizeof book, CHANGEOVER_FULL, one_step + 22, 13, out,
                          sizeof out) == sizeof one_step,
           "add");
    expect(memcmp(out, one_step, sizeof out) == 0, "record count and end renewed");
}

/*
 * A relation without places, so there is one fact; a move without parameters; a
 * record of two steps, whose three states all list the fact. In a full book it
 * holds throughout. In a short one it turns with both steps, and by 12 no rule
 * list fits.
 */
static const uint8_t one_fact[55] = {
    0, 0, 0, 1, 0, 1, 0, 1, 0, 16, 0, 20, 0, 26, 0, 55, /* header */
    0, 0, 0, 0, 0, 0, 0, 0, 0, 0,                       /* relation, move */
    0, 2, 0, 29, 0, 1, 1, 0, 0,                         /* a record: head, state */
    1, 0, 0, 0, 0, 0, 1, 1, 0, 0,                       /* step, state */
    1, 0, 0, 0, 0, 0, 1, 1, 0, 0,                       /* step, state */
};

static void test_forms(void)
{
    static const uint32_t forms[] = {CHANGEOVER_FULL, CHANGEOVER_SHORT, 2, 256, 65536, UINT32_MAX};
    const size_t len = sizeof one_fact;
    uint8_t sheet[CHANGEOVER_RULES_LEN], end[CHANGEOVER_END_LEN], out[84];

    expect(CHANGEOVER_FULL == 0 && CHANGEOVER_SHORT == 1, "the forms");
    for (size_t i = 0; i < sizeof forms / sizeof *forms; i++) {
        uint32_t form = forms[i];
        uint64_t conflict = refusal(CHANGEOVER_CONFLICT, 1);

        expect(changeover_look_over(one_fact, len, form) == 2, "look over in a form");
        expect(changeover_learn(one_fact, len, form, sheet, sizeof sheet) == (form ? conflict : 2),
               "learn in a form");
        expect(changeover_check(one_fact, len, form, bare_order, sizeof bare_order, end,
                                sizeof end) == (form ? conflict : 0),
               "check in a form");
        expect(changeover_add(one_fact, len, form, one_fact + 26, 29, out, sizeof out) == len + 29,
               "add in a form");
    }
}

/* From full to short, where nothing turns, and back; and the same bytes from short to full. */
static void test_converters(void)
{
    const uint64_t wrong_length = refusal(CHANGEOVER_OUTPUT_LENGTH, 0);
    const size_t len = sizeof one_fact;
    uint8_t out[56], back[55];

    memset(out, 0xa7, sizeof out);
    expect(changeover_to_short(one_fact, len, out, 48) == wrong_length, "too short an output");
    expect(changeover_to_full(one_fact, len, NULL, 0) == wrong_length, "no output");
    expect(changeover_to_short(NULL, 0, out, sizeof out) == refusal(CHANGEOVER_BOOK_LENGTH, 0),
           "no book");
    expect(all_are(out, sizeof out, 0xa7), "a refusal writes nothing");
    expect(changeover_to_short(one_fact, len, out, sizeof out) == 49, "full to short");
    expect(out[15] == 49 && out[29] == 23, "end and record's length renewed");
    expect(out[41] == 0 && out[48] == 0, "nothing turns");
    expect(all_are(out + 49, sizeof out - 49, 0xa7), "bytes beyond the short book");
    expect(changeover_to_full(out, 49, back, sizeof back) == len, "back to full");
    expect(memcmp(back, one_fact, len) == 0, "there and back");
    expect(changeover_to_full(one_fact, len, out, sizeof out) == 52, "short to full");
    expect(out[41] == 0 && out[48] == 1, "no fact after the first step, one after the second");
}

/*
 * The relation and the move of one_fact. In a full book the first step removes the
 * fact, so that the move needs it, and the second, tried without it, did not go. In
 * a short one the fact holds throughout, and the second step did not go with it.
 */
static const uint8_t one_failed[49] = {
    0, 0, 0, 1, 0, 1, 0, 1, 0, 16, 0, 20, 0, 26, 0, 49, /* header */
    0, 0, 0, 0, 0, 0, 0, 0, 0, 0,                       /* relation, move */
    0, 2, 0, 23, 0, 1, 1, 0, 0,                         /* a record: head, state */
    1, 0, 0, 0, 0, 0, 0,                                /* step, state */
    129, 0, 0, 0, 0, 0, 0,                              /* step that did not go, state */
};
enum { FAILED_AT = 42, ONE_FACT_SECOND_AT = 45 };

static void test_failed_steps(void)
{
    const uint64_t needs_met = refusal(CHANGEOVER_ALL_NEEDS_MET, FAILED_AT);
    const size_t len = sizeof one_failed;
    uint8_t book[49], sheet[CHANGEOVER_RULES_LEN], end[CHANGEOVER_END_LEN];

    expect(changeover_look_over(one_failed, len, CHANGEOVER_FULL) == 2, "such a step counts");
    expect(changeover_learn(one_failed, len, CHANGEOVER_FULL, sheet, sizeof sheet) == 2,
           "such a step with a need unmet");
    expect(changeover_in_rules(sheet, 1, CHANGEOVER_NEEDED_TO_HOLD, 1, 0, 0) &&
               !changeover_in_rules(sheet, 1, CHANGEOVER_NEEDED_NOT_TO_HOLD, 1, 0, 0) &&
               !changeover_in_rules(sheet, 1, CHANGEOVER_ADDED, 1, 0, 0) &&
               changeover_in_rules(sheet, 1, CHANGEOVER_REMOVED, 1, 0, 0),
           "such a step teaches nothing");
    expect(changeover_look_over(one_failed, len, CHANGEOVER_SHORT) == 2, "such a step, short");
    expect(changeover_learn(one_failed, len, CHANGEOVER_SHORT, NULL, 0) == needs_met,
           "28 before 13");
    expect(changeover_check(one_failed, len, CHANGEOVER_SHORT, NULL, 0, end, sizeof end) ==
               needs_met,
           "28 of a check");
    memcpy(book, one_failed, len);
    book[FAILED_AT] = 128;
    expect(changeover_look_over(book, len, CHANGEOVER_FULL) ==
               refusal(CHANGEOVER_STEP, FAILED_AT),
           "move 0");
}

/* The states before and after one_fact's second step: equal in a full book, not in a short one. */
static void test_states_differ(void)
{
    const uint64_t differ = refusal(CHANGEOVER_STATES_DIFFER, ONE_FACT_SECOND_AT);
    const size_t len = sizeof one_fact;
    uint8_t book[55], out[110], back[55], sheet[CHANGEOVER_RULES_LEN];

    memcpy(book, one_fact, len);
    book[ONE_FACT_SECOND_AT] = 129;
    expect(changeover_look_over(book, len, CHANGEOVER_FULL) == 2, "equal states");
    expect(changeover_look_over(book, len, CHANGEOVER_SHORT) == differ, "look over, 27");
    expect(changeover_learn(book, len, CHANGEOVER_SHORT, sheet, sizeof sheet) == differ,
           "learn, 27");
    expect(changeover_to_full(book, len, out, sizeof out) == differ, "to full, 27");
    expect(changeover_add(one_fact, len, CHANGEOVER_SHORT, book + 26, 29, out, sizeof out) ==
               refusal(CHANGEOVER_STATES_DIFFER, 55 - 26 + ONE_FACT_SECOND_AT),
           "add, 27 at its offset in the new book");
    expect(changeover_add(one_fact, len, CHANGEOVER_FULL, book + 26, 29, out, sizeof out) ==
               len + 29,
           "add such a step");
    expect(changeover_to_short(book, len, out, sizeof out) == 49, "to short");
    expect(out[FAILED_AT] == 129, "converting keeps the 128");
    expect(changeover_to_full(out, 49, back, sizeof back) == len, "back to full");
    expect(memcmp(back, book, len) == 0, "there and back");
}

/*
 * A record of such a step alone, which is no record without steps. The move has no
 * bound facts, so no need can be unmet. In an order such a byte is no move.
 */
static void test_failed_alone(void)
{
    static const uint8_t order[23] = {0,  0, 0,  1, 0, 0, 0,   1, 0, 16, 0, 16,
                                      0, 18, 0, 18, 0, 0, 129, 0, 0, 0,  0};
    uint8_t book[35], end[CHANGEOVER_END_LEN];

    memcpy(book, one_step, sizeof book);
    book[28] = 129;
    expect(changeover_look_over(book, sizeof book, CHANGEOVER_FULL) == 1, "such a step alone");
    expect(changeover_learn(book, sizeof book, CHANGEOVER_FULL, NULL, 0) ==
               refusal(CHANGEOVER_ALL_NEEDS_MET, 28),
           "no need that could be unmet");
    expect(changeover_check(one_step, sizeof one_step, CHANGEOVER_FULL, order, sizeof order, end,
                            sizeof end) == refusal(CHANGEOVER_PLAN_STEP, 18),
           "such a step in an order");
}

/*
 * A relation without places, so there is one fact. The order has two starts, the
 * fact holding in the first alone, no steps, and the goal that the fact holds.
 */
static void test_starts(void)
{
    static const uint8_t book[20] = {0, 0, 0, 1, 0, 0, 0, 0, 0, 16, 0, 20, 0, 20, 0, 20};
    uint8_t order[27] = {0, 0,  0, 2, 0, 1, 0, 0, 0, 16, 0, 16, 0, 23,
                         0, 27, 0, 1, 1, 0, 0, 0, 0, 1,  1, 0,  0};
    uint8_t end[CHANGEOVER_END_LEN];
    uint64_t answer;

    memset(end, 0xa7, sizeof end);
    answer = changeover_check(book, sizeof book, CHANGEOVER_FULL, order, sizeof order, end,
                              sizeof end);
    expect(changeover_number(answer) == CHANGEOVER_GOAL_MISSED, "number of the second start");
    expect(changeover_place(answer) == 1, "place of the second start");
    expect(changeover_position(answer) == 2, "position of the second start");
    expect(all_are(end, sizeof end, 0xa7), "a refusal writes nothing");

    order[5] = 0; /* without the goal entry it passes */
    order[15] = 23;
    answer = changeover_check(book, sizeof book, CHANGEOVER_FULL, order, 23, end, sizeof end);
    expect(answer == 0, "two starts pass");
    expect(all_are(end, sizeof end, 0xa7), "end sheet with two starts");
    answer = changeover_check(book, sizeof book, CHANGEOVER_FULL, order, 23, end, sizeof end - 1);
    expect(answer == refusal(CHANGEOVER_OUTPUT_LENGTH, 0), "end sheet of wrong length");

    order[3] = 17;
    answer = changeover_check(book, sizeof book, CHANGEOVER_FULL, order, 23, end, sizeof end);
    expect(answer == refusal(CHANGEOVER_START_COUNT, 0), "17 starts");
    order[3] = 1; /* the second start is left over */
    answer = changeover_check(book, sizeof book, CHANGEOVER_FULL, order, 23, end, sizeof end);
    expect(answer == refusal(CHANGEOVER_START, 21), "bytes left behind the start");
}

/*
 * Two inputs may overlap: a book as its own order, which has no start then; an
 * order whose start is the first two bytes of the book; a book's own record added
 * again.
 */
static void test_overlap(void)
{
    static const uint8_t both[32] = {0, 0, 0, 1, 0, 0, 0, 0, 0, 16, 0, 16, 0, 18, 0, 18,
                                     0, 0, 0, 0, 0, 0, 0, 0, 0, 16, 0, 16, 0, 16, 0, 16};
    const uint8_t *record = one_step + 22;
    const size_t len = sizeof one_step;
    uint8_t end[CHANGEOVER_END_LEN], out[48];

    expect(changeover_check(bare, sizeof bare, CHANGEOVER_FULL, bare, sizeof bare, end,
                            sizeof end) == refusal(CHANGEOVER_START_COUNT, 0),
           "a book as its own order");
    expect(changeover_check(both + 16, 16, CHANGEOVER_FULL, both, 18, end, sizeof end) == 0,
           "an order that reaches into the book");
    expect(changeover_add(one_step, len, CHANGEOVER_FULL, record, 13, out, sizeof out) == 48,
           "a record of the book added again");
    expect(memcmp(out + 22, record, 13) == 0 && memcmp(out + 35, record, 13) == 0,
           "both records");
}

/* Lengths that no memory has, such as -1 of a read that failed. */
static void test_impossible_lengths(void)
{
    static const size_t lengths[] = {SIZE_MAX, SIZE_MAX - 15, SIZE_MAX - 16, SIZE_MAX / 2 + 1};
    const uint64_t too_long = refusal(CHANGEOVER_BOOK_LENGTH, 0);
    const size_t bare_len = sizeof bare;
    uint8_t end[CHANGEOVER_END_LEN], out[22];

    for (size_t i = 0; i < sizeof lengths / sizeof *lengths; i++) {
        size_t len = lengths[i];
        expect(changeover_look_over(bare, len, CHANGEOVER_FULL) == too_long, "such a book");
        expect(changeover_to_short(bare, len, out, sizeof out) == too_long, "such a full book");
        expect(changeover_to_full(bare, len, out, sizeof out) == too_long, "such a short book");
        expect(changeover_learn(bare, bare_len, CHANGEOVER_FULL, NULL, len) ==
                   refusal(CHANGEOVER_OUTPUT_LENGTH, 0),
               "such a sheet");
        expect(changeover_check(bare, bare_len, CHANGEOVER_FULL, bare_order, len, end,
                                sizeof end) == refusal(CHANGEOVER_ORDER_HEADER, 0),
               "such an order");
        expect(changeover_add(bare, bare_len, CHANGEOVER_FULL, bare, len, out, sizeof out) ==
                   too_long,
               "such a record");
    }
}

int main(void)
{
    test_calls();
    test_records();
    test_forms();
    test_converters();
    test_failed_steps();
    test_states_differ();
    test_failed_alone();
    test_starts();
    test_overlap();
    test_impossible_lengths();
    return failed;
}
