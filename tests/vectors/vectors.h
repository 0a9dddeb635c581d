/*
 * Reads test vectors, as README.md describes them, and makes their calls: what
 * run.c and tests/stack share. Needs changeover.h and a C library. Nothing here
 * may reach memcpy or memset, since tests/stack makes the first call of a
 * process that does.
 */
#ifndef VECTORS_H
#define VECTORS_H

#include "changeover.h"

#include <limits.h>
#include <stdio.h>
#include <stdlib.h>
#include <string.h>

enum job { LOOK_OVER, LEARN, CHECK, ADD, TO_SHORT, TO_FULL, JOBS };
static const char *const job_names[JOBS] = {"look_over", "learn",    "check",
                                            "add",       "to_short", "to_full"};

enum { ROOM = 1 << 17, LINE = 1 << 12 };
struct bytes {
    size_t len, len_before; /* of this vector, and of the last one before it that has some */
    uint8_t *at, *before;
};

/* The vector that was read last. */
static struct {
    char name[LINE];
    int wanted[JOBS];
    struct bytes book, order, record, after;
    unsigned long form, output, number, place, position;
} vector;

/* The keys whose value is bytes. */
static const struct {
    const char *key;
    struct bytes *to;
} byte_keys[] = {{"book", &vector.book},
                 {"order", &vector.order},
                 {"record", &vector.record},
                 {"after", &vector.after}};

/* The keys whose value is a number: the largest, and what stands if the key is left out. */
static const struct {
    const char *key;
    unsigned long *to, most, left_out;
} number_keys[] = {{"form", &vector.form, UINT32_MAX, CHANGEOVER_FULL},
                   {"output", &vector.output, ROOM, 0},
                   {"number", &vector.number, UINT16_MAX, ULONG_MAX},
                   {"place", &vector.place, UINT32_MAX, ULONG_MAX},
                   {"position", &vector.position, UINT16_MAX, 0}};

enum { BYTE_KEYS = sizeof byte_keys / sizeof *byte_keys };
enum { NUMBER_KEYS = sizeof number_keys / sizeof *number_keys };

static uint8_t rooms[BYTE_KEYS][2][ROOM];

/* ---- the calls */

static uint64_t expected_answer(void)
{
    return (uint64_t)vector.number << 48 | (uint64_t)vector.position << 32 | vector.place;
}

/* The input beside the book, of a call that has one. */
static const struct bytes *other_input(int job)
{
    return job == CHECK ? &vector.order : &vector.record;
}

static uint64_t call(int job, const uint8_t *book, const uint8_t *other, uint8_t *out)
{
    size_t book_len = vector.book.len, other_len = other_input(job)->len, out_len = vector.output;
    uint32_t form = (uint32_t)vector.form;

    switch (job) {
    case LOOK_OVER:
        return changeover_look_over(book, book_len, form);
    case LEARN:
        return changeover_learn(book, book_len, form, out, out_len);
    case CHECK:
        return changeover_check(book, book_len, form, other, other_len, out, out_len);
    case ADD:
        return changeover_add(book, book_len, form, other, other_len, out, out_len);
    case TO_SHORT:
        return changeover_to_short(book, book_len, out, out_len);
    default:
        return changeover_to_full(book, book_len, out, out_len);
    }
}

/* ---- the file */

static unsigned long line_number, vectors;
static int ended;
static void (*take_vector)(void);

static void stop(const char *what)
{
    fprintf(stderr, "line %lu: %s\n", line_number, what);
    exit(2);
}

static void end_vector(void)
{
    int jobs = 0;

    if (vector.number == ULONG_MAX || vector.place == ULONG_MAX || vector.after.len > vector.output)
        stop("the vector that ends here has no number or place, or too short an output");
    for (int job = 0; job < JOBS; job++)
        jobs += vector.wanted[job];
    if (jobs == 0)
        stop("the vector that ends here has no jobs");
    vectors++;
    take_vector();
}

/* Those of the vector that ended are the ones before, if it had some. */
static void begin_bytes(struct bytes *bytes)
{
    if (bytes->len > 0) {
        uint8_t *free_room = bytes->before;

        bytes->before = bytes->at;
        bytes->len_before = bytes->len;
        bytes->at = free_room;
    }
    bytes->len = 0;
}

static void begin_vector(const char *name)
{
    if (vector.name[0] != '\0')
        end_vector();
    strcpy(vector.name, name);
    for (int job = 0; job < JOBS; job++)
        vector.wanted[job] = 0;
    for (int i = 0; i < BYTE_KEYS; i++)
        begin_bytes(byte_keys[i].to);
    for (int i = 0; i < NUMBER_KEYS; i++)
        *number_keys[i].to = number_keys[i].left_out;
}

static unsigned long decimal(const char *text, unsigned long most)
{
    char *end;
    unsigned long n = strtoul(text, &end, 10);

    if (end == text || *end != '\0' || n > most)
        stop("no number, or too large a one");
    return n;
}

static void end_file(const char *count)
{
    if (vector.name[0] != '\0')
        end_vector();
    ended = 1;
    if (decimal(count, ULONG_MAX) != vectors)
        stop("another number of vectors");
}

static void append_byte(struct bytes *to, uint8_t byte)
{
    if (to->len == ROOM)
        stop("too many bytes");
    to->at[to->len++] = byte;
}

/* Hexadecimal digits, then perhaps `*n`. */
static void append_written(struct bytes *to, const char *part)
{
    size_t digits = strspn(part, "0123456789abcdefABCDEF");
    unsigned long times = part[digits] == '*' ? decimal(part + digits + 1, ROOM) : 1;

    if (digits == 0 || digits % 2 != 0 || (part[digits] != '*' && part[digits] != '\0'))
        stop("not hexadecimal");
    for (; times > 0; times--)
        for (size_t i = 0; i < digits; i += 2) {
            char byte[3] = {part[i], part[i + 1], '\0'};
            append_byte(to, (uint8_t)strtoul(byte, NULL, 16));
        }
}

/* Some of the bytes before. */
static void append_copied(struct bytes *to, size_t from, size_t len)
{
    if (len == 0 || from > to->len_before || len > to->len_before - from)
        stop("no such bytes before");
    for (size_t i = from; i < from + len; i++)
        append_byte(to, to->before[i]);
}

/* One part: `same`, `@a+n`, or written out. */
static void append_part(struct bytes *to, char *part)
{
    char *plus = strchr(part, '+');

    if (strcmp(part, "same") == 0)
        append_copied(to, 0, to->len_before);
    else if (part[0] != '@')
        append_written(to, part);
    else if (plus == NULL)
        stop("no length to copy");
    else {
        *plus = '\0';
        append_copied(to, decimal(part + 1, ROOM), decimal(plus + 1, ROOM));
    }
}

static void want(const char *word)
{
    int job = 0;

    while (job < JOBS && strcmp(word, job_names[job]) != 0)
        job++;
    if (job == JOBS)
        stop("no such job");
    vector.wanted[job] = 1;
}

/* The bytes that a key names; NULL if it names none. */
static struct bytes *bytes_of(const char *key)
{
    for (int i = 0; i < BYTE_KEYS; i++)
        if (strcmp(key, byte_keys[i].key) == 0)
            return byte_keys[i].to;
    return NULL;
}

static void read_number(const char *key, const char *value)
{
    int i = 0;

    while (i < NUMBER_KEYS && strcmp(key, number_keys[i].key) != 0)
        i++;
    if (i == NUMBER_KEYS)
        stop("no such key");
    *number_keys[i].to = decimal(value, number_keys[i].most);
}

static void read_value(const char *key, char *value)
{
    struct bytes *to = bytes_of(key);

    if (ended)
        stop("a line behind the end");
    else if (strcmp(key, "vector") == 0)
        begin_vector(value);
    else if (strcmp(key, "end") == 0)
        end_file(value);
    else if (vector.name[0] == '\0')
        stop("a line before the first vector");
    else if (to != NULL || strcmp(key, "jobs") == 0)
        for (char *word = strtok(value, " "); word != NULL; word = strtok(NULL, " "))
            if (to != NULL)
                append_part(to, word);
            else
                want(word);
    else
        read_number(key, value);
}

static void read_line(char *line, char *key)
{
    size_t end = strcspn(line, "\n");

    line_number++;
    if (line[end] == '\0' && end == LINE - 1)
        stop("too long a line");
    line[end] = '\0';
    if (end == 0 || line[0] == '#')
        return;
    /* A line that begins with a blank goes on with the bytes before. */
    end = strcspn(line, " ");
    if (end > 0)
        sprintf(key, "%.*s", (int)end, line);
    else if (bytes_of(key) == NULL)
        stop("nothing to go on with");
    read_value(key, line[end] == ' ' ? line + end + 1 : line + end);
}

/* Calls `take` after each vector of the file that the one argument of the program names. */
static void read_vectors(int count, char **words, void (*take)(void))
{
    static char line[LINE], key[LINE];
    FILE *file = count == 2 ? fopen(words[1], "r") : NULL;

    if (file == NULL) {
        fprintf(stderr, "usage: %s FILE, a file of vectors that can be read\n", words[0]);
        exit(2);
    }
    for (int i = 0; i < BYTE_KEYS; i++) {
        byte_keys[i].to->at = rooms[i][0];
        byte_keys[i].to->before = rooms[i][1];
    }
    take_vector = take;
    while (fgets(line, sizeof line, file) != NULL)
        read_line(line, key);
    fclose(file);
    if (!ended)
        stop("no end: the file was cut");
}

#endif
