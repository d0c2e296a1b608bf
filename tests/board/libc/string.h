/* string.h: see libc.c, and memory.c for the first three. */
#ifndef STRING_H
#define STRING_H

#include <stddef.h>

void *memcpy(void *restrict to, const void *restrict from, size_t count);
void *memmove(void *to, const void *from, size_t count);
void *memset(void *to, int byte, size_t count);
int strcmp(const char *a, const char *b);
char *strcpy(char *restrict to, const char *restrict from);
char *strchr(const char *text, int c);
size_t strlen(const char *text);
size_t strcspn(const char *text, const char *stops);
char *strtok(char *restrict text, const char *restrict stops);

#endif
