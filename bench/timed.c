/* Runs a program on this one's standard input and output, and prints on standard error how many
 * seconds it took and its most resident memory in kilobytes.
 *
 *     timed PROGRAM
 *
 * It is written in C since Linux counts what the starting process held, up to the start of the
 * program, as the program's own: from Python that would be more than the program ever takes. */

#define _GNU_SOURCE

#include <stdio.h>
#include <sys/resource.h>
#include <sys/wait.h>
#include <time.h>
#include <unistd.h>

static double seconds(void)
{
    struct timespec now;
    clock_gettime(CLOCK_MONOTONIC, &now);
    return (double)now.tv_sec + 1e-9 * (double)now.tv_nsec;
}

int main(int count, char **words)
{
    if (count != 2) {
        fprintf(stderr, "usage: timed PROGRAM\n");
        return 2;
    }
    double start = seconds();
    pid_t child = fork();
    if (child == 0) {
        execv(words[1], words + 1);
        _exit(127);
    }
    int status;
    struct rusage used;
    if (child < 0 || wait4(child, &status, 0, &used) != child) {
        perror("timed");
        return 1;
    }
    double taken = seconds() - start;
    if (!WIFEXITED(status) || WEXITSTATUS(status) != 0) {
        fprintf(stderr, "timed: %s failed\n", words[1]);
        return 1;
    }
    fprintf(stderr, "%.6f %ld\n", taken, used.ru_maxrss);
    return 0;
}
