/*
 * changeover_message: the text of every number, and buffers of every length. The
 * file is C11 and C++17 at once; it is built as both.
 */
#include "changeover.h"
#include "expect.h"

#include <string.h>

static uint64_t answer_of(unsigned number, unsigned position, uint32_t place)
{
    return (uint64_t)number << 48 | (uint64_t)position << 32 | place;
}

static void expect_text(uint64_t answer, const char *text)
{
    char message[CHANGEOVER_MESSAGE_MAX];

    expect(changeover_message(answer, message, sizeof message) == strlen(text), text);
    expect(strcmp(message, text) == 0, text);
}

/*
 * By number, each with an answer that it may have, and the number's words behind the
 * text. There is no 25 and no 26; their words say so.
 */
static const struct {
    uint32_t place;
    unsigned position;
    const char *text;
} numbers[] = {
    {58, 0, "success, 58"},
    {0, 0, "refused 1: "},
    {0, 0, "refused 2: "},
    {0, 0, "refused 3: "},
    {16, 0, "refused 4, offset 16 in the book: "},
    {24, 0, "refused 5, offset 24 in the book: "},
    {59999, 0, "refused 6, offset 59999 in the book: "},
    {34, 0, "refused 7, offset 34 in the book: "},
    {37, 0, "refused 8, offset 37 in the book: "},
    {45, 0, "refused 9, offset 45 in the book: "},
    {45, 0, "refused 10, offset 45 in the book: "},
    {60000, 0, "refused 11, offset 60000 in the book: "},
    {32, 0, "refused 12, move 32: "},
    {0, 0, "refused 13: "},
    {0, 0, "refused 14: "},
    {16, 0, "refused 15, offset 16 in the order: "},
    {20, 0, "refused 16, offset 20 in the order: "},
    {31, 0, "refused 17, offset 31 in the order: "},
    {100, 0, "refused 18, offset 100 in the order: "},
    {2, 1, "refused 19, step 2, start 1: "},
    {4, 16, "refused 20, goal entry 4, start 16: "},
    {16, 0, "refused 21, offset 16 in the book: "},
    {0, 0, "refused 22: "},
    {0, 0, "refused 23: "},
    {30, 0, "refused 24, offset 30 in the book: "},
    {7, 0, "refused 25, place 7: "},
    {0, 0, "refused 26, place 0: "},
    {45, 0, "refused 27, offset 45 in the book: "},
    {59993, 0, "refused 28, offset 59993 in the book: "},
};

static void test_numbers(void)
{
    const unsigned count = sizeof numbers / sizeof *numbers;

    expect(count == CHANGEOVER_ALL_NEEDS_MET + 1, "a text for every number");
    for (unsigned number = 0; number < count; number++) {
        char text[CHANGEOVER_MESSAGE_MAX];

        snprintf(text, sizeof text, "%s%s", numbers[number].text,
                 number == 0 ? "" : changeover_words((enum changeover_numbers)number));
        expect_text(answer_of(number, numbers[number].position, numbers[number].place), text);
    }
}

/* Numbers of another version, and places that no answer of this one has. */
static void test_others(void)
{
    expect_text(answer_of(26, 0, 6), "refused 26, place 6: no such number");
    expect_text(answer_of(999, 0, 7), "refused 999, place 7: no such number");
    expect_text(answer_of(65535, 65535, UINT32_MAX),
                "refused 65535, place 4294967295, start 65535: no such number");
    expect_text(0, "success, 0");
    expect_text(9, "success, 9");
    expect_text(10, "success, 10");
    expect_text(1000000000, "success, 1000000000");
    expect_text(UINT32_MAX, "success, 4294967295");
}

static void test_longest(void)
{
    for (unsigned number = 0; number <= 65535; number++)
        expect(changeover_message(answer_of(number, 65535, UINT32_MAX), NULL, 0) <
                   CHANGEOVER_MESSAGE_MAX,
               "a message over CHANGEOVER_MESSAGE_MAX");
}

/* As much as there is room for, a 0 behind it, and the bytes beyond the buffer as they were. */
static void test_cut(void)
{
    static const char text[] = "refused 19, step 64, start 16: a learned need is unmet in the plan";
    const uint64_t answer = answer_of(19, 16, 64);

    for (size_t length = 0; length <= sizeof text + 1; length++) {
        size_t kept = length < sizeof text ? length : sizeof text;
        char buffer[sizeof text + 2], other[sizeof text + 2];

        memset(buffer, 0x55, sizeof buffer);
        memset(other, 0x55, sizeof other);
        if (kept != 0) {
            memcpy(other, text, kept - 1);
            other[kept - 1] = '\0';
        }
        expect(changeover_message(answer, buffer, length) == sizeof text - 1,
               "the length of a message that was cut");
        expect(memcmp(buffer, other, sizeof buffer) == 0, "a message that was cut");
    }
}

int main(void)
{
    test_numbers();
    test_others();
    test_longest();
    test_cut();
    return failed;
}
