/* stdio.h: see libc.c. */
#ifndef STDIO_H
#define STDIO_H

#include <stddef.h>

typedef struct file FILE;

extern FILE *const stderr;

FILE *fopen(const char *restrict path, const char *restrict way);
char *fgets(char *restrict line, int size, FILE *restrict file);
int fclose(FILE *file);
int printf(const char *restrict format, ...);
int fprintf(FILE *restrict file, const char *restrict format, ...);

#endif
