/* stdlib.h: see libc.c. */
#ifndef STDLIB_H
#define STDLIB_H

#include <stddef.h>

void *malloc(size_t count);
void free(void *block);
__attribute__((noreturn)) void exit(int status);
unsigned long long strtoull(const char *restrict text, char **restrict end, int base);

#endif
