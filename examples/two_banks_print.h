/*
 * What two_banks.c prints of its hall, with the words of two_banks.h and
 * two_banks_plans.h: the rules of a rule sheet, the starts and plans of orders,
 * and the facts of an end sheet. A sheet has a bit for each fact, so every fact
 * that may hold is asked for.
 */
#ifndef TWO_BANKS_PRINT_H
#define TWO_BANKS_PRINT_H

#include "changeover.h"
#include "two_banks.h"
#include "two_banks_plans.h"

#include <stdio.h>

/* Whether a number (0: none) may stand in a place of the kind named (0: unused). */
static int suits(const uint8_t *kinds, unsigned number, uint8_t named)
{
    uint8_t kind;

    if (number == 0 || named == 0)
        return number == 0 && named == 0;
    for (kind = kinds[number - 1]; kind != 0 && kind != named; kind = parents[kind - 1])
        ;
    return kind == named;
}

enum { FACTS_MAX = RELATIONS * 36 }; /* two places, and no more than 6 objects */

/* All facts of objects of these kinds; with a move's parameters for objects, its bound facts. */
static size_t all_facts(const uint8_t *kinds, unsigned count, struct fact *facts)
{
    size_t found = 0;

    for (unsigned relation = 1; relation <= RELATIONS; relation++)
        for (unsigned first = 0; first <= count; first++)
            for (unsigned second = 0; second <= count; second++)
                if (suits(kinds, first, relations[relation - 1].kinds[0]) &&
                    suits(kinds, second, relations[relation - 1].kinds[1])) {
                    facts[found].relation = (uint8_t)relation;
                    facts[found].first = (uint8_t)first;
                    facts[found].second = (uint8_t)second;
                    found++;
                }
    return found;
}

static void print_fact(const char *const *words, const struct fact *fact)
{
    printf("%s %s", words[fact->first - 1], relations[fact->relation - 1].word);
    if (fact->second != 0)
        printf(" %s", words[fact->second - 1]);
}

static const char *const need_words[] = {"not needed", "needed to hold", "needed not to hold",
                                         "needed both ways"};
static const char *const effect_words[] = {"", ", added", ", removed"};

/* Of two sets, whether a bound fact is in the first (1), the second (2), both (3) or none (0). */
static int in_sets(const uint8_t *sheet, unsigned move, const struct fact *bound,
                   enum changeover_set one, enum changeover_set two)
{
    unsigned relation = bound->relation, first = bound->first, second = bound->second;

    return changeover_in_rules(sheet, move, one, relation, first, second) +
           2 * changeover_in_rules(sheet, move, two, relation, first, second);
}

static int need(const uint8_t *sheet, unsigned move, const struct fact *bound)
{
    return in_sets(sheet, move, bound, CHANGEOVER_NEEDED_TO_HOLD, CHANGEOVER_NEEDED_NOT_TO_HOLD);
}

static int effect(const uint8_t *sheet, unsigned move, const struct fact *bound)
{
    return in_sets(sheet, move, bound, CHANGEOVER_ADDED, CHANGEOVER_REMOVED);
}

/* The rules of all moves; if there is an earlier sheet, those that changed. */
static void print_rules(const uint8_t *sheet, const uint8_t *earlier)
{
    printf("%s\n", earlier == NULL ? "its rules" : "rules that changed");
    for (unsigned number = 1; number <= MOVES; number++) {
        const struct move *move = &moves[number - 1];
        struct fact bound[FACTS_MAX];
        size_t count = all_facts(move->kinds, COUNT(move->kinds), bound);

        for (size_t i = 0; i < count; i++) {
            int needed = need(sheet, number, &bound[i]), made = effect(sheet, number, &bound[i]);

            if (earlier != NULL && need(earlier, number, &bound[i]) == needed &&
                effect(earlier, number, &bound[i]) == made)
                continue;
            printf("    %s: ", move->word);
            print_fact(move->parameters, &bound[i]);
            printf(", %s%s\n", need_words[needed], effect_words[made]);
        }
    }
}

static void print_starts(void)
{
    printf("\nthe starts of the orders\n");
    for (size_t i = 0; i < COUNT(starts); i++) {
        printf("    start %u: ", (unsigned)(i + 1));
        for (size_t j = 0; j < starts[i].count; j++) {
            printf("%s", j == 0 ? "" : ", ");
            print_fact(hall_words, &starts[i].facts[j]);
        }
        printf("\n");
    }
}

static void print_plan(const struct plan *plan)
{
    printf("\n%s\n", plan->title);
    if (plan->start_count > 1)
        printf("    from each of the starts 1 to %u\n", (unsigned)plan->start_count);
    for (size_t i = 0; i < plan->step_count; i++) {
        const struct step *step = &plan->steps[i];

        printf("    step %u: %s", (unsigned)(i + 1), moves[step->move - 1].word);
        for (size_t j = 0; j < COUNT(step->objects) && step->objects[j] != 0; j++)
            printf("%s %s", j == 0 ? "" : ",", hall_words[step->objects[j] - 1]);
        printf("\n");
    }
}

static int in_end(const uint8_t *end, const struct fact *fact)
{
    return changeover_in_end(end, fact->relation, fact->first, fact->second);
}

static void print_end(const uint8_t *end, const char *when)
{
    struct fact facts[FACTS_MAX];
    size_t count = all_facts(hall, COUNT(hall), facts);

    for (size_t i = 0; i < count; i++)
        if (in_end(end, &facts[i])) {
            printf("    %s: ", when);
            print_fact(hall_words, &facts[i]);
            printf("\n");
        }
}

#endif
