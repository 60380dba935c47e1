/* What the programs that call one function many times share. */

#include <stdio.h>
#include <stdlib.h>
#include <string.h>
#include <time.h>

#include "calls.h"

void print_bytes(const char *what, const void *bytes, size_t count)
{
    printf(" %s", what);
    for (size_t i = 0; i < count; i++)
        printf(" %02X", ((const unsigned char *)bytes)[i]);
}

double nanoseconds(void)
{
    struct timespec now;
    clock_gettime(CLOCK_MONOTONIC, &now);
    return 1e9 * (double)now.tv_sec + (double)now.tv_nsec;
}

static const struct operation *find_operation(const char *name, const struct operation *operations,
                                              size_t known)
{
    for (size_t i = 0; i < known; i++)
        if (strcmp(operations[i].name, name) == 0) return &operations[i];
    return NULL;
}

int run_operation(int count, char **words, const struct operation *operations, size_t known,
                  void (*print_memory)(void))
{
    long calls = count == 3 ? strtol(words[1], NULL, 10) : 0;
    const struct operation *operation =
        count == 3 ? find_operation(words[2], operations, known) : NULL;
    if (calls < 1 || operation == NULL) {
        fprintf(stderr, "usage: count CALLS OPERATION\n");
        return 2;
    }

    double start = nanoseconds();
    for (long i = 0; i < calls; i++)
        operation->call();
    double taken = nanoseconds() - start;

    operation->print();
    print_memory();
    printf("\n%.2f\n", taken / (double)calls);
    return 0;
}
