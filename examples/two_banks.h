/*
 * A hall with two banks and a lift, for two_banks.c: the numbers of its kinds,
 * relations and moves with their words, and its records, each made with
 * builder.h.
 */
#ifndef TWO_BANKS_H
#define TWO_BANKS_H

#include "builder.h"

#define COUNT(array) (sizeof(array) / sizeof *(array))

/* The numbers of the book. They count from 1. */
enum { BANK = 1, SPOT, LIFT, WAGON, KINDS = WAGON };
enum { AT = 1, CLEAR, TURNED, UNDER, RAISED, RELATIONS = RAISED };
enum { ROLL = 1, TURN, TURN_BACK, RAISE, LOWER, MOVES = LOWER };

/* A wagon is a bank: what is asked of a bank a wagon does too, and what banks taught holds for it. */
static const uint8_t parents[KINDS] = {0, 0, 0, BANK};

struct relation {
    const char *word;
    uint8_t kinds[2];
};

/*
 * What is raised is the spot and not the lift under it: a move can only need
 * facts over its own parameters, and roll has spots among them, but no lift.
 */
static const struct relation relations[RELATIONS] = {
    {"at", {BANK, SPOT}},    {"clear", {SPOT, 0}},  {"turned", {BANK, 0}},
    {"under", {LIFT, SPOT}}, {"raised", {SPOT, 0}},
};

struct move {
    const char *word;
    uint8_t kinds[4];
    const char *parameters[4];
};

/* To turn back is a move of its own, since no rule list has a move add a fact and remove it. */
static const struct move moves[MOVES] = {
    {"roll", {BANK, SPOT, SPOT, 0}, {"bank", "from", "to", NULL}},
    {"turn", {BANK, SPOT, 0, 0}, {"bank", "spot", NULL, NULL}},
    {"turn back", {BANK, SPOT, 0, 0}, {"bank", "spot", NULL, NULL}},
    {"raise", {LIFT, SPOT, 0, 0}, {"lift", "spot", NULL, NULL}},
    {"lower", {LIFT, SPOT, 0, 0}, {"lift", "spot", NULL, NULL}},
};

static size_t rolling(struct builder *b)
{
    static const uint8_t objects[] = {BANK, SPOT, SPOT, SPOT};
    static const struct fact at_2[] = {{AT, 1, 2}, {CLEAR, 3, 0}, {CLEAR, 4, 0}};
    static const struct fact at_3[] = {{AT, 1, 3}, {CLEAR, 2, 0}, {CLEAR, 4, 0}};
    static const struct fact at_4[] = {{AT, 1, 4}, {CLEAR, 2, 0}, {CLEAR, 3, 0}};

    record_begin(b, objects, COUNT(objects));
    record_state(b, at_2, COUNT(at_2));
    builder_step(b, ROLL, 1, 2, 3, 0);
    record_state(b, at_3, COUNT(at_3));
    builder_step(b, ROLL, 1, 3, 4, 0);
    record_state(b, at_4, COUNT(at_4));
    return record_end(b);
}

/* Each record numbers its objects anew; here the spots come first. */
static size_t rolling_turned(struct builder *b)
{
    static const uint8_t objects[] = {SPOT, SPOT, SPOT, BANK, BANK};
    static const struct fact before[] = {{AT, 4, 1}, {AT, 5, 2}, {CLEAR, 3, 0}};
    static const struct fact turned[] = {{AT, 4, 1}, {AT, 5, 2}, {CLEAR, 3, 0}, {TURNED, 4, 0}};
    static const struct fact rolled[] = {{AT, 4, 3}, {AT, 5, 2}, {CLEAR, 1, 0}, {TURNED, 4, 0}};
    static const struct fact both[] = {{AT, 4, 3}, {AT, 5, 1}, {CLEAR, 2, 0}, {TURNED, 4, 0}};

    record_begin(b, objects, COUNT(objects));
    record_state(b, before, COUNT(before));
    builder_step(b, TURN, 4, 1, 0, 0);
    record_state(b, turned, COUNT(turned));
    builder_step(b, ROLL, 4, 1, 3, 0);
    record_state(b, rolled, COUNT(rolled));
    builder_step(b, ROLL, 5, 2, 1, 0);
    record_state(b, both, COUNT(both));
    return record_end(b);
}

static size_t lifting(struct builder *b)
{
    static const uint8_t objects[] = {LIFT, SPOT, BANK, SPOT};
    static const struct fact low[] = {{AT, 3, 4}, {CLEAR, 2, 0}, {UNDER, 1, 2}};
    static const struct fact high[] = {{AT, 3, 4}, {CLEAR, 2, 0}, {UNDER, 1, 2}, {RAISED, 2, 0}};
    static const struct fact rolled[] = {{AT, 3, 2}, {CLEAR, 4, 0}, {UNDER, 1, 2}};

    record_begin(b, objects, COUNT(objects));
    record_state(b, low, COUNT(low));
    builder_step(b, RAISE, 1, 2, 0, 0);
    record_state(b, high, COUNT(high));
    builder_step(b, LOWER, 1, 2, 0, 0);
    record_state(b, low, COUNT(low));
    builder_step(b, ROLL, 3, 4, 2, 0);
    record_state(b, rolled, COUNT(rolled));
    return record_end(b);
}

static size_t lifting_bank(struct builder *b)
{
    static const uint8_t objects[] = {BANK, LIFT, SPOT};
    static const struct fact low[] = {{AT, 1, 3}, {UNDER, 2, 3}};
    static const struct fact high[] = {{AT, 1, 3}, {UNDER, 2, 3}, {RAISED, 3, 0}};
    static const struct fact turned[] = {{AT, 1, 3}, {UNDER, 2, 3}, {RAISED, 3, 0}, {TURNED, 1, 0}};
    static const struct fact lowered[] = {{AT, 1, 3}, {UNDER, 2, 3}, {TURNED, 1, 0}};

    record_begin(b, objects, COUNT(objects));
    record_state(b, low, COUNT(low));
    builder_step(b, RAISE, 2, 3, 0, 0);
    record_state(b, high, COUNT(high));
    builder_step(b, TURN, 1, 3, 0, 0);
    record_state(b, turned, COUNT(turned));
    builder_step(b, LOWER, 2, 3, 0, 0);
    record_state(b, lowered, COUNT(lowered));
    return record_end(b);
}

static size_t roll_onto_raised(struct builder *b)
{
    static const uint8_t objects[] = {BANK, SPOT, SPOT, LIFT};
    static const struct fact raised[] = {{AT, 1, 2}, {CLEAR, 3, 0}, {UNDER, 4, 3}, {RAISED, 3, 0}};

    record_begin(b, objects, COUNT(objects));
    record_state(b, raised, COUNT(raised));
    record_failed_step(b, ROLL, 1, 2, 3, 0);
    record_state(b, raised, COUNT(raised));
    return record_end(b);
}

static size_t roll_to_clear(struct builder *b)
{
    static const uint8_t objects[] = {BANK, SPOT, SPOT};
    static const struct fact clear[] = {{AT, 1, 2}, {CLEAR, 3, 0}};

    record_begin(b, objects, COUNT(objects));
    record_state(b, clear, COUNT(clear));
    record_failed_step(b, ROLL, 1, 2, 3, 0);
    record_state(b, clear, COUNT(clear));
    return record_end(b);
}

struct record {
    const char *words;
    size_t (*make)(struct builder *b);
};

static const struct record records[] = {
    {"a bank rolls, and rolls on", rolling},
    {"a bank is turned and rolls, another rolls", rolling_turned},
    {"a lift with no bank on it is raised and lowered, a bank rolls onto it", lifting},
    {"a lift with a bank on it is raised, the bank is turned, the lift is lowered", lifting_bank},
    {"a bank does not roll to a spot that is raised", roll_onto_raised},
    {"a bank does not roll to a spot that is clear and not raised", roll_to_clear},
};

#endif
