/* What the programs that call one function many times share. */

#ifndef CALLS_H
#define CALLS_H

#include <stddef.h>

/* A call that can be counted: its name, the call, and what prints every field of its result. */
struct operation {
    const char *name;
    void (*call)(void), (*print)(void);
};

/* Runs `count CALLS OPERATION`, from the words of its command line; the exit status. What it prints
 * is one line with the operation's result and what `print_memory` adds of the bytes that were lent,
 * and one line with the nanoseconds of a call. */
int run_operation(int count, char **words, const struct operation *operations, size_t known,
                  void (*print_memory)(void));

/* Prints a word, and each byte after it in hex. */
void print_bytes(const char *what, const void *bytes, size_t count);

/* Nanoseconds since a start that is the same for all calls. */
double nanoseconds(void);

#endif
