/*
 * `slow PROGRAM`: runs a program between two pipes that do not block and take
 * little at a time. What comes from standard input is handed to it bit by bit,
 * and what it writes is copied to standard output bit by bit, with pauses.
 * Status 0 if the program ended by itself.
 */
#define _GNU_SOURCE /* for F_SETPIPE_SZ */
#include <fcntl.h>
#include <stdio.h>
#include <sys/wait.h>
#include <time.h>
#include <unistd.h>

enum { PAGE = 4096, LITTLE = 3000, PAUSE = 2000000 };

static int copy_slowly(int from, int to)
{
    static const struct timespec pause = {0, PAUSE};
    char bytes[LITTLE];
    ssize_t got;

    while ((got = read(from, bytes, sizeof bytes)) > 0) {
        nanosleep(&pause, NULL);
        if (write(to, bytes, (size_t)got) != got)
            return 0;
    }
    return got == 0;
}

/* Only the program's end does not block; a pipe has one such setting for each end. */
static int slow_pipe(int ends[2], int programs_end)
{
    return pipe(ends) == 0 && fcntl(ends[1], F_SETPIPE_SZ, PAGE) >= 0 &&
           fcntl(ends[programs_end], F_SETFL, O_NONBLOCK) == 0;
}

static void run(const char *program, int in[2], int out[2])
{
    dup2(in[0], STDIN_FILENO);
    dup2(out[1], STDOUT_FILENO);
    close(in[0]);
    close(in[1]);
    close(out[0]);
    close(out[1]);
    execl(program, program, (char *)NULL);
    _exit(127);
}

int main(int count, char **words)
{
    int in[2], out[2], fed, status;
    pid_t child;

    if (count != 2 || !slow_pipe(in, 0) || !slow_pipe(out, 1) || (child = fork()) < 0) {
        fprintf(stderr, "usage: slow PROGRAM, or no pipe or process could be had\n");
        return 2;
    }
    if (child == 0)
        run(words[1], in, out);
    close(in[0]);
    close(out[1]);
    fed = copy_slowly(STDIN_FILENO, in[1]);
    close(in[1]);
    if (!fed || !copy_slowly(out[0], STDOUT_FILENO) || waitpid(child, &status, 0) != child)
        return 1;
    return WIFEXITED(status) && WEXITSTATUS(status) == 0 ? 0 : 1;
}
