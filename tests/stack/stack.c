/*
 * The stack that a call uses when it is the first one of its process, so that
 * the dynamic linker's work for memcpy and memset is in it, held to what
 * include/changeover.h says. `stack FILE` makes each call of each vector of the
 * file in three processes of its own, forked from one that has made none:
 *   in a thread with just so much stack as the header says
 *   in eight such threads at once
 *   in a thread whose stack was painted, which shows how many bytes it takes
 * and prints for each call the most that was seen, and in which vector. Status 1
 * if a call does not give its vector's answer, or takes more than the header
 * says. With LD_BIND_NOW=1 it prints the same without the linker's share.
 * Nothing here may reach memcpy or memset.
 */
#define _DEFAULT_SOURCE /* for MAP_ANONYMOUS */
#include "../vectors/vectors.h"

#include <pthread.h>
#include <sys/mman.h>
#include <sys/wait.h>
#include <unistd.h>

enum { STACK = 1 << 17, PAINT = 0xa7, THREADS = 8 };

/* What one thread lends to its call, and the answer. */
static struct lent {
    uint64_t answer;
    uint8_t out[ROOM];
} lents[THREADS];

static int job;      /* the call that is made */
static size_t *used; /* where a process leaves what it measured, for the one that forked it */
static size_t thread_used;

static struct {
    unsigned long calls;
    size_t most;
    char vector[LINE];
} seen[JOBS];
static int failed;

static size_t promised(void)
{
    if (job == ADD)
        return CHANGEOVER_STACK_ADD;
    return job == TO_SHORT || job == TO_FULL ? CHANGEOVER_STACK_CONVERT : CHANGEOVER_STACK;
}

static void *nothing(void *lent)
{
    return lent;
}

static void *make_call(void *lent)
{
    struct lent *l = (struct lent *)lent;

    l->answer = call(job, vector.book.at, other_input(job)->at, l->out);
    return lent;
}

/* Bytes that a thread with a painted stack took; 0 if it could not be run. */
static size_t stack_used(void *(*work)(void *))
{
    volatile uint8_t *stack = (uint8_t *)mmap(NULL, STACK, PROT_READ | PROT_WRITE,
                                              MAP_PRIVATE | MAP_ANONYMOUS, -1, 0);
    pthread_attr_t attributes;
    pthread_t thread;
    size_t left = 0;

    if (stack == MAP_FAILED)
        return 0;
    for (size_t at = 0; at < STACK; at++)
        stack[at] = PAINT;
    if (pthread_attr_init(&attributes) != 0 ||
        pthread_attr_setstack(&attributes, (void *)stack, STACK) != 0 ||
        pthread_create(&thread, &attributes, work, &lents[0]) != 0 ||
        pthread_join(thread, NULL) != 0)
        return 0;
    while (left < STACK && stack[left] == PAINT)
        left++;
    return STACK - left;
}

/* A thread whose stack is used up runs into its guard page, which ends the process. */
static int in_threads(size_t count)
{
    pthread_attr_t attributes;
    pthread_t threads[THREADS];

    if (pthread_attr_init(&attributes) != 0 ||
        pthread_attr_setstacksize(&attributes, promised()) != 0)
        return 0;
    for (size_t i = 0; i < count; i++)
        if (pthread_create(&threads[i], &attributes, make_call, &lents[i]) != 0)
            return 0;
    for (size_t i = 0; i < count; i++)
        if (pthread_join(threads[i], NULL) != 0 || lents[i].answer != expected_answer())
            return 0;
    return 1;
}

/* ---- what is done in a process of its own */

static int one_thread(void)
{
    return in_threads(1);
}

static int eight_threads(void)
{
    return in_threads(THREADS);
}

static int measured(void)
{
    *used = stack_used(make_call);
    return *used > thread_used && *used <= promised() && lents[0].answer == expected_answer();
}

static int thread_measured(void)
{
    *used = stack_used(nothing);
    return *used > 0;
}

/* Whether the process ended by itself and found all well. */
static int apart(int (*part)(void))
{
    pid_t child = fork();
    int status;

    if (child == 0)
        _exit(part() ? 0 : 1);
    return child > 0 && waitpid(child, &status, 0) == child && WIFEXITED(status) &&
           WEXITSTATUS(status) == 0;
}

/* ---- the vectors */

static void hold(int good, const char *what)
{
    if (good)
        return;
    printf("%s: %s failed %s\n", vector.name, job_names[job], what);
    failed = 1;
}

static void run_vector(void)
{
    for (job = 0; job < JOBS; job++)
        if (vector.wanted[job]) {
            hold(apart(one_thread), "in a thread");
            hold(apart(eight_threads), "in eight threads");
            *used = 0;
            hold(apart(measured), "in a thread whose stack was painted");
            seen[job].calls++;
            if (*used > seen[job].most) {
                seen[job].most = *used;
                strcpy(seen[job].vector, vector.name);
            }
        }
}

int main(int count, char **words)
{
    used = (size_t *)mmap(NULL, sizeof *used, PROT_READ | PROT_WRITE,
                          MAP_SHARED | MAP_ANONYMOUS, -1, 0);
    if (used == MAP_FAILED || !apart(thread_measured))
        stop("no thread with a painted stack");
    thread_used = *used;
    read_vectors(count, words, run_vector);
    for (job = 0; job < JOBS; job++)
        printf("%s: at most %zu bytes of stack, %zu with the thread's own, of %zu; "
               "%lu calls, most in: %s\n",
               job_names[job], seen[job].most - thread_used, seen[job].most, promised(),
               seen[job].calls, seen[job].vector);
    return failed;
}
