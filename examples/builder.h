/*
 * Builds the bytes of full books, their records, and orders (FORMAT.md) in memory
 * that the caller lends. Counts, offsets and lengths are set here, and facts
 * may be given in any order. After builder_begin the parts come in the order of
 * their bytes:
 *   book    book_begin, book_parents if kinds have any, relations, moves, records,
 *           book_end
 *   record  record_begin, a state, then a step and a state in turn, record_end; a
 *           step that did not go is put by record_failed_step
 *   order   order_begin, order_start for each start, order_goal, steps, order_end
 * A record is made in a book, or alone for changeover_add.
 *
 * What does not fit is remembered, nothing is written any more, and the length
 * at the end is 0; so only that has to be tested, and the calls of the library
 * refuse a length of 0. All other faults, such as a fact given twice, are left
 * to them.
 */
#ifndef BUILDER_H
#define BUILDER_H

#include <stddef.h>
#include <stdint.h>
#include <string.h>

/* Objects are 0 where unused. */
struct fact {
    uint8_t relation, first, second;
};

struct goal_entry {
    uint8_t holds; /* 1: the fact shall hold at the end, 0: it shall not */
    struct fact fact;
};

struct builder {
    uint8_t *out;
    size_t capacity, length;
    int overflow; /* the capacity was reached, or a count was too great for its bytes */
    size_t kinds, parents, relations, moves, records; /* counts of a book */
    size_t objects, starts, goal, steps;     /* of an order; objects and steps also of a record */
    size_t record;                           /* where the record begins */
    size_t starts_end;                       /* where the last start of an order ends */
};

static inline void builder_begin(struct builder *b, uint8_t *out, size_t capacity)
{
    memset(b, 0, sizeof *b);
    b->out = out;
    b->capacity = capacity;
}

/* Room for further bytes, NULL if there is not enough. */
static inline uint8_t *builder_room(struct builder *b, size_t count)
{
    if (b->overflow || count > b->capacity - b->length) {
        b->overflow = 1;
        return NULL;
    }
    b->length += count;
    return b->out + b->length - count;
}

static inline void builder_put(struct builder *b, const uint8_t *bytes, size_t count)
{
    uint8_t *room = builder_room(b, count);

    if (room != NULL && count != 0)
        memcpy(room, bytes, count);
}

/* Puts an entry before the greater ones of its list; they compare by their last three bytes. */
static inline void builder_put_sorted(struct builder *b, size_t list, const uint8_t *entry,
                                      size_t size)
{
    uint8_t *room = builder_room(b, size);

    if (room == NULL)
        return;
    while (room != b->out + list && memcmp(room - 3, entry + size - 3, 3) > 0) {
        memcpy(room, room - size, size);
        room -= size;
    }
    memcpy(room, entry, size);
}

/* Sets a number of one byte or two, high byte first, in room that was had before. */
static inline void builder_set(struct builder *b, size_t at, size_t value, size_t width)
{
    if (value >> 8 * width != 0)
        b->overflow = 1;
    if (b->overflow)
        return;
    if (width == 2)
        b->out[at++] = (uint8_t)(value >> 8);
    b->out[at] = (uint8_t)(value & 0xff);
}

/* A state of a record, or a start of an order: how many facts, and the facts. */
static inline void builder_put_state(struct builder *b, const struct fact *facts, size_t count)
{
    size_t at = b->length, list = at + 2;

    builder_room(b, 2);
    builder_set(b, at, count, 2);
    for (size_t i = 0; i < count; i++) {
        const uint8_t entry[3] = {facts[i].relation, facts[i].first, facts[i].second};
        builder_put_sorted(b, list, entry, sizeof entry);
    }
}

/* Sets the header, which books and orders have alike: four counts, four offsets. */
static inline size_t builder_end(struct builder *b, const size_t header[8])
{
    for (size_t i = 0; i < 8; i++)
        builder_set(b, 2 * i, header[i], 2);
    return b->overflow ? 0 : b->length;
}

/* A relation or a move: how many kinds it has, the kinds, a zero byte. */
static inline void builder_put_kinds(struct builder *b, const uint8_t *kinds, size_t most)
{
    const uint8_t zero = 0;
    uint8_t count = 0;

    for (size_t i = 0; i < most; i++)
        count = (uint8_t)(count + (kinds[i] != 0));
    builder_put(b, &count, 1);
    builder_put(b, kinds, most);
    builder_put(b, &zero, 1);
}

/* A step of a record or of an order; objects are 0 where unused. */
static inline void builder_step(struct builder *b, uint8_t move, uint8_t first, uint8_t second,
                                uint8_t third, uint8_t fourth)
{
    const uint8_t step[5] = {move, first, second, third, fourth};

    builder_put(b, step, sizeof step);
    b->steps++;
}

static inline void book_begin(struct builder *b, size_t kinds)
{
    builder_room(b, 16); /* book_end fills it */
    b->kinds = kinds;
}

/* The parent of each kind that book_begin was told of: a smaller kind, or 0 for none. */
static inline void book_parents(struct builder *b, const uint8_t *parents)
{
    builder_put(b, parents, b->kinds);
    b->parents = b->kinds;
}

/* Kinds are 0 where unused. */
static inline void book_relation(struct builder *b, const uint8_t kinds[2])
{
    builder_put_kinds(b, kinds, 2);
    b->relations++;
}

static inline void book_move(struct builder *b, const uint8_t kinds[4])
{
    builder_put_kinds(b, kinds, 4);
    b->moves++;
}

/* The length of the book, 0 if it did not fit. */
static inline size_t book_end(struct builder *b)
{
    size_t relations_at = 16 + b->parents;
    size_t moves_at = relations_at + 4 * b->relations;
    size_t records_at = moves_at + 6 * b->moves;
    const size_t header[8] = {b->kinds,     b->relations, b->moves,   b->records,
                              relations_at, moves_at,     records_at, b->length};

    return builder_end(b, header);
}

/* The objects of a record are given by their kinds; object 1 is the first of them. */
static inline void record_begin(struct builder *b, const uint8_t *kinds, size_t count)
{
    b->record = b->length;
    b->objects = count;
    b->steps = 0;
    builder_room(b, 4); /* record_end fills it */
    builder_put(b, kinds, count);
}

static inline void record_state(struct builder *b, const struct fact *facts, size_t count)
{
    builder_put_state(b, facts, count);
}

/* A step that did not go: 128 is added to its move. The state after it is that before it. */
static inline void record_failed_step(struct builder *b, uint8_t move, uint8_t first,
                                      uint8_t second, uint8_t third, uint8_t fourth)
{
    if (move >= 128)
        b->overflow = 1;
    builder_step(b, (uint8_t)(move | 128), first, second, third, fourth);
}

/* The length of the record, 0 if it did not fit. */
static inline size_t record_end(struct builder *b)
{
    size_t length = b->length - b->record;

    builder_set(b, b->record, b->objects, 1);
    builder_set(b, b->record + 1, b->steps, 1);
    builder_set(b, b->record + 2, length, 2);
    b->records++;
    return b->overflow ? 0 : length;
}

static inline void order_begin(struct builder *b, const uint8_t *kinds, size_t count)
{
    builder_room(b, 16); /* order_end fills it */
    b->objects = count;
    builder_put(b, kinds, count);
}

/* One of the states that the plan may begin in. An order has 1 to 16 of them. */
static inline void order_start(struct builder *b, const struct fact *facts, size_t count)
{
    builder_put_state(b, facts, count);
    b->starts++;
    b->starts_end = b->length;
}

/* Row 20 counts the entries as they are sorted here, not as they were given. */
static inline void order_goal(struct builder *b, const struct goal_entry *entries, size_t count)
{
    size_t list = b->length;

    b->goal = count;
    for (size_t i = 0; i < count; i++) {
        const struct fact *fact = &entries[i].fact;
        const uint8_t entry[4] = {entries[i].holds, fact->relation, fact->first, fact->second};
        builder_put_sorted(b, list, entry, sizeof entry);
    }
}

/* The length of the order, 0 if it did not fit. */
static inline size_t order_end(struct builder *b)
{
    size_t starts_at = 16 + b->objects;
    size_t goal_at = b->starts_end;
    size_t steps_at = goal_at + 4 * b->goal;
    const size_t header[8] = {b->objects, b->starts, b->goal, b->steps,
                              16,         starts_at, goal_at, steps_at};

    return builder_end(b, header);
}

#endif
