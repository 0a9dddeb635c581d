/*
 * Runs test vectors, as README.md describes them, on the library that it is
 * linked with: `run FILE`. Needs vectors.h, changeover.h and a C library. Status
 * 1 if a vector fails, 2 if the file is not as described. Each input is lent in
 * memory of its own, just as long, so a sanitiser or valgrind sees what reads
 * too far.
 */
#include "vectors.h"

enum { GUARD = 1 << 12 };

static unsigned long calls, failures;

static void *room(size_t len)
{
    void *memory = malloc(len > 0 ? len : 1);

    if (memory == NULL)
        stop("no memory");
    return memory;
}

/* A copy to lend; NULL for no bytes, if told so. */
static uint8_t *lend(const struct bytes *bytes, int null)
{
    if (null && bytes->len == 0)
        return NULL;
    return (uint8_t *)memcpy(room(bytes->len), bytes->at, bytes->len);
}

static int taken_back(const struct bytes *bytes, uint8_t *lent)
{
    int same = bytes->len == 0 || memcmp(bytes->at, lent, bytes->len) == 0;

    free(lent);
    return same;
}

/* What the output holds beforehand; it is lent between two parts that are no part of it. */
static uint8_t filled(size_t at, unsigned fill)
{
    return (uint8_t)((at ^ fill) * 167);
}

static int fails(int job, const char *what)
{
    printf("%s: %s %s\n", vector.name, job_names[job], what);
    return 0;
}

/* The answer whole, and as changeover.h takes it apart. */
static int is_expected(uint64_t given)
{
    return given == expected_answer() && (unsigned long)changeover_number(given) == vector.number &&
           changeover_place(given) == vector.place &&
           changeover_position(given) == vector.position;
}

/* In the second round empty inputs and outputs are NULL, and the output is filled otherwise. */
static int passes(int job, int round)
{
    const struct bytes *book = &vector.book, *second = other_input(job), *after = &vector.after;
    size_t all = vector.output + 2 * GUARD;
    uint8_t *in = lend(book, round), *other = lend(second, round), *out = (uint8_t *)room(all);
    int empty = round == 1 && vector.output == 0, good = 1;
    uint64_t given;

    for (size_t i = 0; i < all; i++)
        out[i] = filled(i, (unsigned)round);
    given = call(job, in, other, empty ? NULL : out + GUARD);
    if (!is_expected(given)) {
        printf("%s: %s gave %016llx, expected %016llx\n", vector.name, job_names[job],
               (unsigned long long)given, (unsigned long long)expected_answer());
        good = 0;
    }
    for (size_t i = 0; good && i < all; i++)
        if (out[i] != (i - GUARD < after->len ? after->at[i - GUARD] : filled(i, (unsigned)round)))
            good = fails(job, "left a wrong byte in the output, or beside it");
    free(out);
    if (!(taken_back(book, in) & taken_back(second, other)))
        good = fails(job, "changed an input");
    return good;
}

static void run_vector(void)
{
    for (int job = 0; job < JOBS; job++)
        if (vector.wanted[job]) {
            calls++;
            failures += !(passes(job, 0) && passes(job, 1));
        }
}

int main(int count, char **words)
{
    setvbuf(stdout, NULL, _IOLBF, BUFSIZ); /* what failed is told also if a call crashes */
    read_vectors(count, words, run_vector);
    printf("%lu vectors, %lu calls, %lu failed\n", vectors, calls, failures);
    return failures == 0 ? 0 : 1;
}
