/*
 * The orders of two_banks.c: the objects of their hall, the starts, and for each
 * plan how many of the starts it has, its goal and its steps.
 */
#ifndef TWO_BANKS_PLANS_H
#define TWO_BANKS_PLANS_H

#include "two_banks.h"

/* The objects, and what they are called. No record has a wagon, but it is a bank. */
static const uint8_t hall[] = {BANK, WAGON, SPOT, SPOT, SPOT, LIFT};
static const char *const hall_words[] = {"bank 1", "wagon 2", "spot 3",
                                         "spot 4", "spot 5",  "lift 6"};

/* The states that the hall may be left in. */
static const struct fact as_usual[] = {{UNDER, 6, 5}, {CLEAR, 5, 0}, {AT, 2, 4}, {AT, 1, 3}};
static const struct fact bank_turned[] = {
    {UNDER, 6, 5}, {CLEAR, 5, 0}, {AT, 2, 4}, {AT, 1, 3}, {TURNED, 1, 0}};
static const struct fact lift_raised[] = {
    {UNDER, 6, 5}, {CLEAR, 5, 0}, {AT, 2, 4}, {AT, 1, 3}, {RAISED, 5, 0}};

struct start {
    const struct fact *facts;
    size_t count;
};

static const struct start starts[] = {{as_usual, COUNT(as_usual)},
                                      {bank_turned, COUNT(bank_turned)},
                                      {lift_raised, COUNT(lift_raised)}};

struct step {
    uint8_t move, objects[4];
};

struct plan {
    const char *title;
    const struct start *starts; /* any of these may be the one, and the plan must do for each */
    size_t start_count;
    const struct goal_entry *goal;
    size_t goal_count;
    const struct step *steps;
    size_t step_count;
};

static const struct goal_entry swapped[] = {
    {1, {TURNED, 2, 0}}, {0, {TURNED, 1, 0}}, {1, {AT, 2, 3}}, {1, {AT, 1, 4}}};
static const struct step swap_steps[] = {{ROLL, {1, 3, 5, 0}},
                                         {ROLL, {2, 4, 3, 0}},
                                         {ROLL, {1, 5, 4, 0}},
                                         {TURN, {2, 3, 0, 0}}};
static const struct plan swap = {
    "swap bank and wagon, turn the wagon", starts, 1, swapped, 4, swap_steps, 4};
static const struct plan no_turn = {
    "the same goal, but no turn", starts, 1, swapped, 4, swap_steps, 3};

static const struct goal_entry at_5[] = {{1, {AT, 1, 5}}};
static const struct step onto_raised_steps[] = {{RAISE, {6, 5, 0, 0}}, {ROLL, {1, 3, 5, 0}}};
static const struct plan onto_raised = {
    "raise the lift, roll bank 1 onto it", starts, 1, at_5, 1, onto_raised_steps, 2};

static const struct goal_entry not_turned[] = {{0, {TURNED, 1, 0}}};
static const struct step back_steps[] = {{TURN, {1, 3, 0, 0}}, {TURN_BACK, {1, 3, 0, 0}}};
static const struct plan back = {
    "turn bank 1, turn it back", starts, 1, not_turned, 1, back_steps, 2};

static const struct goal_entry turned_high[] = {{1, {TURNED, 1, 0}}, {1, {RAISED, 5, 0}}};
static const struct step high_steps[] = {
    {ROLL, {1, 3, 5, 0}}, {RAISE, {6, 5, 0, 0}}, {TURN, {1, 5, 0, 0}}};
static const struct plan high = {"raise the lift with bank 1 on it, turn the bank there",
                                 starts, 1, turned_high, 2, high_steps, 3};

/* One plan for several starts. Only the last of the three asks for the third goal entry. */
static const struct goal_entry moved_up[] = {
    {1, {AT, 1, 5}}, {1, {AT, 2, 3}}, {0, {TURNED, 1, 0}}};
static const struct step move_up_steps[] = {{ROLL, {1, 3, 5, 0}}, {ROLL, {2, 4, 3, 0}}};
static const struct plan move_up = {
    "roll bank 1 onto the lift, wagon 2 to spot 3", starts, 2, moved_up, 2, move_up_steps, 2};
static const struct plan one_start_more = {
    "the same, with one start more", starts, 3, moved_up, 2, move_up_steps, 2};
static const struct plan unturned = {
    "the same, and bank 1 shall not be turned", starts, 3, moved_up, 3, move_up_steps, 2};

#endif
