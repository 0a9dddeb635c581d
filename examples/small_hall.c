/*
 * The small hall of the paper from C: its book is looked over, its rules are
 * learned and printed, a plan is checked, a record is added, and the book is
 * converted to a short one, learned from in that form, and converted back.
 */
#include "changeover.h"

#include <inttypes.h>
#include <stdio.h>
#include <string.h>

/*
 * Kind 1 is a bank, 2 a spot; relation 1 "bank at spot", 2 "spot clear";
 * move 1 rolls a bank from spot to spot.
 */
static const uint8_t hall[58] = {
    0, 2, 0, 2, 0, 1, 0, 1, 0, 16, 0, 24, 0, 30, 0, 58, /* counts, offsets */
    2, 1, 2, 0, 1, 2, 0, 0,                             /* relations */
    3, 1, 2, 2, 0, 0,                                   /* the move */
    3, 1, 0, 28, 1, 2, 2,                               /* a record: head, objects */
    0, 2, 1, 1, 2, 2, 3, 0,                             /* bank at 2, spot 3 clear */
    1, 1, 2, 3, 0,                                      /* roll 1 from 2 to 3 */
    0, 2, 1, 1, 3, 2, 2, 0,                             /* bank at 3, spot 2 clear */
};
enum { RECORD_AT = 30, RECORD_LEN = sizeof hall - RECORD_AT, STATE_AFTER_AT = 50 };

static const uint8_t order[45] = {
    0, 4, 0, 1, 0, 1, 0, 2, 0, 16, 0, 20, 0, 31, 0, 35, /* counts, offsets */
    1, 2, 2, 2,                                         /* bank 1, spots 2, 3, 4 */
    0, 3, 1, 1, 2, 2, 3, 0, 2, 4, 0,                    /* start: bank at 2, 3 and 4 clear */
    1, 1, 1, 4,                                         /* goal: bank at 4 */
    1, 1, 2, 3, 0, 1, 1, 3, 4, 0,                       /* roll 1 2 3, roll 1 3 4 */
};

/* Says what a call answered; 1 for success. */
static int show(const char *job, uint64_t answer)
{
    char message[CHANGEOVER_MESSAGE_MAX];

    changeover_message(answer, message, sizeof message);
    printf("%s: %s\n", job, message);
    return changeover_ok(answer);
}

/* Whether a parameter of the move (0: none) fills a place of this kind (0: unused). */
static int fills(const uint8_t *move, unsigned parameter, uint8_t kind)
{
    return parameter == 0 ? kind == 0 : kind != 0 && move[parameter] == kind;
}

static void print_rule(const uint8_t *sheet, unsigned move, unsigned relation, unsigned first,
                       unsigned second)
{
    int in[4];

    for (int set = 0; set < 4; set++)
        in[set] = changeover_in_rules(sheet, move, (enum changeover_set)set, relation, first,
                                      second);
    printf("%u %u %u %u %c %c\n", move, relation, first, second,
           "FHNB"[in[CHANGEOVER_NEEDED_TO_HOLD] + 2 * in[CHANGEOVER_NEEDED_NOT_TO_HOLD]],
           "KAR"[in[CHANGEOVER_ADDED] + 2 * in[CHANGEOVER_REMOVED]]);
}

/*
 * One line for each bound fact of a move, in the order of the sheet. The book has
 * no parents: relations are at 16, and kinds suit if they are equal. two_banks.c
 * has a book with parents.
 */
static void print_rules(const uint8_t *book, const uint8_t *sheet, unsigned number)
{
    const uint8_t *move = book + 16 + 4 * book[3] + 6 * (number - 1);

    for (unsigned relation = 1; relation <= book[3]; relation++) {
        const uint8_t *kinds = book + 16 + 4 * (relation - 1) + 1;
        for (unsigned first = 0; first <= move[0]; first++)
            for (unsigned second = 0; second <= move[0]; second++)
                if (fills(move, first, kinds[0]) && fills(move, second, kinds[1]))
                    print_rule(sheet, number, relation, first, second);
    }
}

static int learn(uint8_t *sheet)
{
    size_t sheet_len = changeover_sheet_len(hall, sizeof hall);
    uint64_t answer = changeover_learn(hall, sizeof hall, CHANGEOVER_FULL, sheet, sheet_len);

    if (!show("learn", answer))
        return 0;
    printf("moves %u records %u steps %" PRIu32 "\n", hall[5], hall[7], changeover_place(answer));
    for (unsigned number = 1; number <= hall[5]; number++)
        print_rules(hall, sheet, number);
    return 1;
}

/* The order has one start, so the end sheet is written. two_banks.c has orders with several. */
static int check(void)
{
    uint8_t end[CHANGEOVER_END_LEN];

    if (!show("check", changeover_check(hall, sizeof hall, CHANGEOVER_FULL, order, sizeof order,
                                        end, sizeof end)))
        return 0;
    for (unsigned spot = 2; spot <= 4; spot++) {
        if (changeover_in_end(end, 1, 1, spot))
            printf("at the end the bank is at %u\n", spot);
        if (changeover_in_end(end, 2, spot, 0))
            printf("at the end spot %u is clear\n", spot);
    }
    return 1;
}

/* Takes the record out of the book (record count 0, end 30), then adds it again. */
static int add(void)
{
    uint8_t before[RECORD_AT], out[sizeof hall];
    const uint8_t *record = hall + RECORD_AT;
    int same;

    memcpy(before, hall, sizeof before);
    before[7] = 0;
    before[15] = RECORD_AT;
    if (!show("add", changeover_add(before, sizeof before, CHANGEOVER_FULL, record, RECORD_LEN,
                                    out, sizeof out)))
        return 0;
    same = memcmp(out, hall, sizeof hall) == 0;
    printf("the new book is %s\n", same ? "the small hall" : "another");
    return same;
}

/* The state after the step, which in a short book is the list of facts that turn. */
static void print_turned(const uint8_t *book)
{
    const uint8_t *list = book + STATE_AFTER_AT;
    unsigned count = (unsigned)list[0] << 8 | list[1];

    for (unsigned i = 0; i < count; i++) {
        const uint8_t *fact = list + 2 + 3 * i;

        printf("%s", i == 0 ? "facts that turn: " : ", ");
        if (fact[0] == 1)
            printf("bank at %u", fact[2]);
        else
            printf("spot %u clear", fact[1]);
    }
    printf("\n");
}

/*
 * More facts turn with the step than hold after it, so the short book of this
 * hall is the longer one. An output of CHANGEOVER_BOOK_MAX bytes is enough for
 * any book, and the place says how many of them it takes.
 */
static int convert(const uint8_t *sheet)
{
    static uint8_t short_hall[CHANGEOVER_BOOK_MAX], back[CHANGEOVER_BOOK_MAX];
    uint8_t short_sheet[CHANGEOVER_SHEET_MAX];
    size_t sheet_len = changeover_sheet_len(hall, sizeof hall), len;
    uint64_t answer = changeover_to_short(hall, sizeof hall, short_hall, sizeof short_hall);
    int same_sheet, same_book;

    if (!show("to short", answer))
        return 0;
    len = changeover_place(answer);
    print_turned(short_hall);
    if (!show("learn, short",
              changeover_learn(short_hall, len, CHANGEOVER_SHORT, short_sheet, sheet_len)))
        return 0;
    same_sheet = memcmp(short_sheet, sheet, sheet_len) == 0;
    printf("the rule sheet is %s\n", same_sheet ? "the same" : "another");
    answer = changeover_to_full(short_hall, len, back, sizeof back);
    if (!show("to full", answer))
        return 0;
    same_book = changeover_place(answer) == sizeof hall && memcmp(back, hall, sizeof hall) == 0;
    printf("the book is %s\n", same_book ? "the small hall again" : "another");
    return same_sheet && same_book;
}

int main(void)
{
    uint8_t sheet[CHANGEOVER_SHEET_MAX];
    int good = show("look over", changeover_look_over(hall, sizeof hall, CHANGEOVER_FULL)) &&
               learn(sheet) && check() && add() && convert(sheet);

    show("look over, cut to 15 bytes", changeover_look_over(hall, 15, CHANGEOVER_FULL));
    show("look over, nothing", changeover_look_over(NULL, 0, CHANGEOVER_FULL));
    return good ? 0 : 1;
}
