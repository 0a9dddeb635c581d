/*
 * Runs the calls on cases read from standard input (see second/src/bin/cases.rs),
 * with books of both forms, every input and output lent between forbidden pages:
 * flush with the page behind, then with the page before, then with NULL where a
 * length is 0. Inputs may not be written. Any touch outside ends the test, as does
 * an answer whose number, place or position is not that of the case, or an output
 * byte changed that must stay.
 */
#define _DEFAULT_SOURCE /* for sigaction with -std=c11 */
#include "area.h"
#include "changeover.h"

#include <signal.h>
#include <stdio.h>
#include <stdlib.h>
#include <string.h>
#include <sys/wait.h>
#include <unistd.h>

enum { LOOK_OVER, LEARN, CHECK, ADD, TO_SHORT, TO_FULL, JOBS };
static const char *const names[JOBS] = {"look over", "learn",    "check",
                                        "add",       "to short", "to full"};
enum { ROOM = 80000, LEAST_REFUSED = 30000 };

struct one_case {
    uint32_t job, form, book_len, other_len, out_len, number, place, position;
    const uint8_t *book, *other; /* other: the order or the record */
};

static struct area books, others, outs;
static uint8_t *pattern; /* what the whole output area is filled with */
static char where[120];  /* for the handler, which may not format */

static void on_touch(int signal)
{
    static const char text[] = "memory was touched that may not be: ";

    (void)signal;
    if (write(2, text, sizeof text - 1) < 0 || write(2, where, strlen(where)) < 0)
        _exit(3);
    _exit(1);
}

static void catch_touches(void)
{
    struct sigaction action;

    memset(&action, 0, sizeof action);
    action.sa_handler = on_touch;
    sigaction(SIGSEGV, &action, NULL);
    sigaction(SIGBUS, &action, NULL);
}

static void fail(const char *what)
{
    fprintf(stderr, "%s: %s", what, where);
    exit(1);
}

/* The pages themselves: each of these touches must end a child with status 1. */
static void test_the_guards(void)
{
    volatile uint8_t *touches[] = {outs.data - 1, outs.data + outs.size, books.data};

    snprintf(where, sizeof where, "this was meant to be\n");
    for (size_t i = 0; i < sizeof touches / sizeof *touches; i++) {
        int status;
        pid_t child = fork();
        if (child == 0) {
            if (freopen("/dev/null", "w", stderr) == NULL)
                _exit(3);
            area_read_only(books);
            *touches[i] = 0;
            _exit(0);
        }
        if (child < 0 || waitpid(child, &status, 0) != child || !WIFEXITED(status) ||
            WEXITSTATUS(status) != 1) {
            fprintf(stderr, "a forbidden page can be touched\n");
            exit(2);
        }
    }
}

static uint64_t call(const struct one_case *c, const uint8_t *book, const uint8_t *other,
                     uint8_t *out)
{
    switch (c->job) {
    case LOOK_OVER:
        return changeover_look_over(book, c->book_len, c->form);
    case LEARN:
        return changeover_learn(book, c->book_len, c->form, out, c->out_len);
    case CHECK:
        return changeover_check(book, c->book_len, c->form, other, c->other_len, out, c->out_len);
    case ADD:
        return changeover_add(book, c->book_len, c->form, other, c->other_len, out, c->out_len);
    case TO_SHORT:
        return changeover_to_short(book, c->book_len, out, c->out_len);
    default:
        return changeover_to_full(book, c->book_len, out, c->out_len);
    }
}

/* The count of starts of an order that is not refused for its header. */
static unsigned starts_of(const struct one_case *c)
{
    return (unsigned)c->other[2] << 8 | c->other[3];
}

/* How many bytes of the output may have been written: with several starts no end sheet. */
static size_t may_change(const struct one_case *c)
{
    if (c->number != 0 || c->job == LOOK_OVER || (c->job == CHECK && starts_of(c) > 1))
        return 0;
    return c->job >= ADD ? c->place : c->out_len;
}

static int is_expected(const struct one_case *c, uint64_t answer)
{
    return (uint32_t)changeover_number(answer) == c->number &&
           changeover_place(answer) == c->place && changeover_position(answer) == c->position;
}

/* Whether some length that the call takes is 0. */
static int lends_nothing(const struct one_case *c)
{
    return c->book_len == 0 || (c->job != LOOK_OVER && c->out_len == 0) ||
           ((c->job == CHECK || c->job == ADD) && c->other_len == 0);
}

static void run(const struct one_case *c, enum flush flush, int null)
{
    uint8_t *book = area_place(books, c->book_len, flush);
    uint8_t *other = area_place(others, c->other_len, flush);
    uint8_t *out = area_place(outs, c->out_len, flush);
    size_t before = (size_t)(out - outs.data), changed = may_change(c);
    uint64_t answer;

    memcpy(book, c->book, c->book_len);
    memcpy(other, c->other, c->other_len);
    memcpy(outs.data, pattern, outs.size);
    area_read_only(books);
    area_read_only(others);
    answer = call(c, null && c->book_len == 0 ? NULL : book,
                  null && c->other_len == 0 ? NULL : other, null && c->out_len == 0 ? NULL : out);
    area_writable(books);
    area_writable(others);
    if (!is_expected(c, answer))
        fail("wrong answer");
    if (memcmp(outs.data, pattern, before) != 0)
        fail("a byte before the output was changed");
    if (memcmp(out + changed, pattern + before + changed, outs.size - before - changed) != 0)
        fail("a byte was changed that must stay");
}

static uint32_t number_at(const uint8_t *bytes)
{
    return bytes[0] | (uint32_t)bytes[1] << 8 | (uint32_t)bytes[2] << 16 | (uint32_t)bytes[3] << 24;
}

static void read_all(uint8_t *into, size_t length)
{
    if (length > ROOM || fread(into, 1, length, stdin) != length) {
        fprintf(stderr, "the cases are cut or too long\n");
        exit(2);
    }
}

/* 0 at the end of the cases. */
static int read_case(struct one_case *c)
{
    static uint8_t book[ROOM], other[ROOM];
    uint8_t head[32];
    int first = getchar();

    if (first == EOF)
        return 0;
    head[0] = (uint8_t)first;
    read_all(head + 1, sizeof head - 1);
    c->job = number_at(head);
    c->form = number_at(head + 4);
    c->book_len = number_at(head + 8);
    c->other_len = number_at(head + 12);
    c->out_len = number_at(head + 16);
    c->number = number_at(head + 20);
    c->place = number_at(head + 24);
    c->position = number_at(head + 28);
    read_all(book, c->book_len);
    read_all(other, c->other_len);
    c->book = book;
    c->other = other;
    if (c->job >= JOBS) {
        fprintf(stderr, "no such job\n");
        exit(2);
    }
    return 1;
}

/* The areas to lend and the pattern; then the guards are tested, which all else relies on. */
static void prepare(void)
{
    books = area_new(ROOM);
    others = area_new(ROOM);
    outs = area_new(ROOM);
    pattern = (uint8_t *)malloc(outs.size);
    if (pattern == NULL)
        exit(2);
    for (size_t at = 0; at < outs.size; at++)
        pattern[at] = (uint8_t)(at * 167 + at / 256);
    catch_touches();
    test_the_guards();
}

/* What was met, by call and by whether its book is short; the converters know theirs. */
static struct {
    unsigned refused, good;
} met[JOBS][2];
static unsigned all_refused, nulls;
static unsigned several, later; /* good from several starts, refused by one behind the first */

static void run_case(const struct one_case *c)
{
    int is_short = c->job == TO_FULL || c->form != CHANGEOVER_FULL;
    unsigned *count = c->number == 0 ? &met[c->job][is_short].good : &met[c->job][is_short].refused;

    snprintf(where, sizeof where, "%s, %s book, %s, case %u\n", names[c->job],
             is_short ? "short" : "full", c->number == 0 ? "good" : "refused", *count);
    run(c, FLUSH_WITH_END, 0);
    run(c, FLUSH_WITH_START, 0);
    if (lends_nothing(c)) {
        run(c, FLUSH_WITH_END, 1);
        nulls++;
    }
    ++*count;
    all_refused += c->number != 0;
    several += c->job == CHECK && c->number == 0 && starts_of(c) > 1;
    later += c->position > 1;
}

/* Whether each call met a good book and a refused one, in each form that it reads. */
static int all_met(void)
{
    int all = 1;

    for (int job = 0; job < JOBS; job++)
        for (int is_short = job == TO_FULL; is_short <= (job != TO_SHORT); is_short++) {
            unsigned refused = met[job][is_short].refused, good = met[job][is_short].good;

            printf("%s, %s books: %u refused, %u good\n", names[job],
                   is_short ? "short" : "full", refused, good);
            all = all && refused > 0 && good > 0;
        }
    return all;
}

int main(void)
{
    struct one_case c;
    int all;

    prepare();
    while (read_case(&c))
        run_case(&c);
    free(pattern);
    all = all_met();
    printf("nothing outside was touched; %u cases refused, %u with NULL, %u good from several "
           "starts, %u refused by a later start\n",
           all_refused, nulls, several, later);
    return all && all_refused >= LEAST_REFUSED && nulls > 0 && several > 0 && later > 0 ? 0 : 1;
}
