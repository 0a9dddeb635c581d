/*
 * A hall with two banks and a lift (two_banks.h): its book is built with
 * builder.h, looked over and learned, plans (two_banks_plans.h) are checked, some
 * of them from several starts, and a record is added, by which a plan passes that
 * was refused before. Then records of a roll that did not go are added: by the first
 * the rules stay, by the second no rule list fits the book. What is printed
 * (two_banks_print.h) says why. The exit status is 0 if each answer is the one that
 * was to come.
 */
#include "changeover.h"
#include "two_banks.h"
#include "two_banks_plans.h"
#include "two_banks_print.h"

#include <inttypes.h>
#include <stdio.h>
#include <string.h>

/* A book, a record or an order; the longest here has 403 bytes. */
struct bytes {
    uint8_t at[500];
    size_t len;
};

/* The book with the first so many records. */
static void make_book(struct bytes *book, size_t count)
{
    struct builder b;

    builder_begin(&b, book->at, sizeof book->at);
    book_begin(&b, KINDS);
    book_parents(&b, parents);
    for (size_t i = 0; i < COUNT(relations); i++)
        book_relation(&b, relations[i].kinds);
    for (size_t i = 0; i < COUNT(moves); i++)
        book_move(&b, moves[i].kinds);
    for (size_t i = 0; i < count; i++)
        records[i].make(&b);
    book->len = book_end(&b);
}

static void make_order(struct bytes *order, const struct plan *plan)
{
    struct builder b;

    builder_begin(&b, order->at, sizeof order->at);
    order_begin(&b, hall, COUNT(hall));
    for (size_t i = 0; i < plan->start_count; i++)
        order_start(&b, plan->starts[i].facts, plan->starts[i].count);
    order_goal(&b, plan->goal, plan->goal_count);
    for (size_t i = 0; i < plan->step_count; i++) {
        const uint8_t *objects = plan->steps[i].objects;
        builder_step(&b, plan->steps[i].move, objects[0], objects[1], objects[2], objects[3]);
    }
    order->len = order_end(&b);
}

static void print_answer(const char *before, uint64_t answer)
{
    char message[CHANGEOVER_MESSAGE_MAX];

    changeover_message(answer, message, sizeof message);
    printf("%s%s\n", before, message);
}

/* Whether an answer is the one that was to come; prints it if not. */
static int expect(uint64_t answer, enum changeover_numbers number, uint32_t place,
                  unsigned position)
{
    if (changeover_number(answer) == number && changeover_place(answer) == place &&
        changeover_position(answer) == position)
        return 1;
    print_answer("WRONG: ", answer);
    return 0;
}

/* Looks over and learns the book of the first so many records, which must have so many steps. */
static int learn(const struct bytes *book, size_t count, uint32_t steps, uint8_t *sheet)
{
    size_t sheet_len = changeover_sheet_len(book->at, book->len);

    printf("book of %u bytes, %" PRIu32 " steps\n", (unsigned)book->len, steps);
    for (size_t i = 0; i < count; i++)
        printf("    record %u: %s\n", (unsigned)(i + 1), records[i].words);
    return expect(changeover_look_over(book->at, book->len, CHANGEOVER_FULL), CHANGEOVER_SUCCESS,
                  steps, 0) &&
           expect(changeover_learn(book->at, book->len, CHANGEOVER_FULL, sheet, sheet_len),
                  CHANGEOVER_SUCCESS, steps, 0);
}

static uint64_t check(const struct bytes *book, const struct plan *plan, uint8_t *end)
{
    struct bytes order;

    make_order(&order, plan);
    return changeover_check(book->at, book->len, CHANGEOVER_FULL, order.at, order.len, end,
                            CHANGEOVER_END_LEN);
}

/* The same plan from one of its starts alone. */
static struct plan from_start(const struct plan *plan, size_t position)
{
    struct plan alone = *plan;

    alone.starts = &plan->starts[position - 1];
    alone.start_count = 1;
    return alone;
}

/* With more than one start the end sheet is not written; so each start is checked alone. */
static void print_ends(const struct bytes *book, const struct plan *plan)
{
    uint8_t end[CHANGEOVER_END_LEN];

    for (size_t i = 1; i <= plan->start_count; i++) {
        struct plan alone = from_start(plan, i);
        char when[40];

        snprintf(when, sizeof when, "at the end, from start %u", (unsigned)i);
        if (changeover_ok(check(book, &alone, end)))
            print_end(end, when);
    }
}

/* What a bound fact becomes in a step: the step says which object a parameter stands for. */
static struct fact fact_in_step(const struct fact *bound, const struct step *step)
{
    struct fact fact = *bound;

    fact.first = step->objects[bound->first - 1];
    fact.second = bound->second == 0 ? 0 : step->objects[bound->second - 1];
    return fact;
}

/*
 * Which needs of a step are unmet. The check gives only the numbers of the step
 * and of the start; but from that start alone the plan up to that step, with no
 * goal, passes, and its end sheet has the facts that hold before the step.
 */
static void print_unmet(const struct bytes *book, const uint8_t *sheet, const struct plan *plan,
                        size_t number, size_t position)
{
    const struct step *step = &plan->steps[number - 1];
    struct plan up_to_step = from_start(plan, position);
    struct fact bound[FACTS_MAX];
    size_t count = all_facts(moves[step->move - 1].kinds, 4, bound);
    uint8_t end[CHANGEOVER_END_LEN];

    up_to_step.goal_count = 0;
    up_to_step.step_count = number - 1;
    if (!changeover_ok(check(book, &up_to_step, end)))
        return;
    for (size_t i = 0; i < count; i++) {
        struct fact fact = fact_in_step(&bound[i], step);
        int needed = need(sheet, step->move, &bound[i]);

        if (needed & (in_end(end, &fact) ? 2 : 1)) {
            printf("    unmet: ");
            print_fact(hall_words, &fact);
            printf(", %s\n", need_words[needed]);
        }
    }
}

/* Entries are numbered as they stand in the order, sorted; so the entry is read there. */
static void print_missed(const struct plan *plan, size_t number)
{
    struct bytes order;
    const uint8_t *entry;
    struct fact fact;

    make_order(&order, plan);
    entry = order.at + (order.at[12] << 8 | order.at[13]) + 4 * (number - 1);
    fact.relation = entry[1];
    fact.first = entry[2];
    fact.second = entry[3];
    printf("    missed: ");
    print_fact(hall_words, &fact);
    printf(", which %s\n", entry[0] ? "shall hold" : "shall not hold");
}

/* Checks a plan, which must have this number, place and position, and prints why. */
static int checked(const struct bytes *book, const uint8_t *sheet, const struct plan *plan,
                   enum changeover_numbers number, uint32_t place, unsigned position)
{
    uint8_t end[CHANGEOVER_END_LEN];
    uint64_t answer;

    print_plan(plan);
    answer = check(book, plan, end);
    if (!expect(answer, number, place, position))
        return 0;
    if (number == CHANGEOVER_SUCCESS) {
        printf("  passes, %" PRIu32 " steps\n", place);
        if (plan->start_count == 1)
            print_end(end, "at the end");
        else
            print_ends(book, plan);
        return 1;
    }
    print_answer("  ", answer);
    if (number == CHANGEOVER_NEED_UNMET)
        print_unmet(book, sheet, plan, place, position);
    else
        print_missed(plan, place);
    return 1;
}

/* Adds the next record to the book of the first so many, which must give the book of one more. */
static int add(const struct bytes *book, size_t count, struct bytes *longer)
{
    struct bytes record, all;
    struct builder b;

    builder_begin(&b, record.at, sizeof record.at);
    record.len = records[count].make(&b);
    make_book(&all, count + 1);
    longer->len = book->len + record.len;
    printf("\na record of %u bytes is added\n", (unsigned)record.len);
    return expect(changeover_add(book->at, book->len, CHANGEOVER_FULL, record.at, record.len,
                                 longer->at, sizeof longer->at),
                  CHANGEOVER_SUCCESS, (uint32_t)all.len, 0) &&
           memcmp(longer->at, all.at, all.len) == 0;
}

/*
 * Adds the two records of a roll that did not go. Before the first, one of the roll's
 * learned needs is unmet: "to raised" is needed not to hold. Before the second all of
 * them are met, and still the bank did not roll.
 */
static int add_failed(const struct bytes *book, const uint8_t *sheet)
{
    struct bytes unmet, met;
    uint8_t later[CHANGEOVER_SHEET_MAX];
    size_t sheet_len = changeover_sheet_len(book->at, book->len);
    uint64_t answer;

    if (!add(book, 4, &unmet) || !learn(&unmet, 5, 12, later) ||
        memcmp(later, sheet, sheet_len) != 0)
        return 0;
    printf("the rules are the same\n");

    if (!add(&unmet, 5, &met))
        return 0;
    printf("    record 6: %s\n", records[5].words);
    answer = changeover_learn(met.at, met.len, CHANGEOVER_FULL, later, sheet_len);
    print_answer("  ", answer);
    return expect(answer, CHANGEOVER_ALL_NEEDS_MET, 390, 0);
}

int main(void)
{
    struct bytes first, book, longer;
    uint8_t first_sheet[CHANGEOVER_SHEET_MAX], sheet[CHANGEOVER_SHEET_MAX];
    uint8_t longer_sheet[CHANGEOVER_SHEET_MAX];

    make_book(&first, 1);
    if (!learn(&first, 1, 2, first_sheet))
        return 1;
    print_rules(first_sheet, NULL);

    printf("\n");
    make_book(&book, 3);
    if (!learn(&book, 3, 8, sheet))
        return 1;
    print_rules(sheet, first_sheet);

    print_starts();

    if (!checked(&book, sheet, &swap, CHANGEOVER_SUCCESS, 4, 0) ||
        !checked(&book, sheet, &no_turn, CHANGEOVER_GOAL_MISSED, 4, 1) ||
        !checked(&book, sheet, &onto_raised, CHANGEOVER_NEED_UNMET, 2, 1) ||
        !checked(&book, sheet, &back, CHANGEOVER_NEED_UNMET, 2, 1) ||
        !checked(&book, sheet, &high, CHANGEOVER_NEED_UNMET, 2, 1))
        return 1;

    /* The last plan fails from start 2 by 20, and from start 3 by 19: start 2 is told of. */
    if (!checked(&book, sheet, &move_up, CHANGEOVER_SUCCESS, 2, 0) ||
        !checked(&book, sheet, &one_start_more, CHANGEOVER_NEED_UNMET, 1, 3) ||
        !checked(&book, sheet, &unturned, CHANGEOVER_GOAL_MISSED, 3, 2))
        return 1;

    if (!add(&book, 3, &longer) || !learn(&longer, 4, 11, longer_sheet))
        return 1;
    print_rules(longer_sheet, sheet);
    if (!checked(&longer, longer_sheet, &high, CHANGEOVER_SUCCESS, 3, 0))
        return 1;
    return add_failed(&longer, longer_sheet) ? 0 : 1;
}
