/* libc.c: the little of the C library that cases.c, vectors.c and seip.c call, on the board: the
 * file that the first two read stands in memory, and what all print goes out on the UART. */
#include "board.h"

#include <ctype.h>
#include <stdarg.h>
#include <stdint.h>
#include <stdio.h>
#include <stdlib.h>
#include <string.h>

/* ---- memory: enough for a run, so none is given back */

extern uint8_t heap_start[], heap_end[]; /* virt.ld's */

void *malloc(size_t count)
{
    static uint8_t *next = heap_start;
    size_t taken = (count + 15) / 16 * 16;
    if (taken > (size_t)(heap_end - next)) return NULL;
    next += taken;
    return next - taken;
}

void free(void *block) { (void)block; }

__attribute__((noreturn)) void exit(int status) { board_off(status); }

/* ---- text */

int isdigit(int c) { return c >= '0' && c <= '9'; }

int isxdigit(int c) { return isdigit(c) || (c >= 'a' && c <= 'f') || (c >= 'A' && c <= 'F'); }

int strcmp(const char *a, const char *b)
{
    for (; *a != '\0' && *a == *b; a++, b++) continue;
    return (unsigned char)*a - (unsigned char)*b;
}

char *strcpy(char *restrict to, const char *restrict from)
{
    for (char *t = to; (*t = *from) != '\0'; t++, from++) continue;
    return to;
}

char *strchr(const char *text, int c)
{
    for (; *text != (char)c; text++) {
        if (*text == '\0') return NULL;
    }
    return (char *)text;
}

size_t strlen(const char *text) { return (size_t)(strchr(text, '\0') - text); }

size_t strcspn(const char *text, const char *stops)
{
    size_t i = 0;
    while (text[i] != '\0' && strchr(stops, text[i]) == NULL) i++;
    return i;
}

/* Cuts at the first of the stops alone, since these programs give no more. */
char *strtok(char *restrict text, const char *restrict stops)
{
    static char *rest;
    if (text == NULL) text = rest;
    while (*text == *stops) text++;
    rest = text + strcspn(text, stops);
    if (*rest != '\0') *rest++ = '\0';
    return *text == '\0' ? NULL : text;
}

static unsigned digit(char c) { return isdigit(c) ? (unsigned)(c - '0') : (unsigned)((c | 0x20) - 'a' + 10); }

unsigned long long strtoull(const char *restrict text, char **restrict end, int base)
{
    unsigned long long value = 0;
    if (base == 0) {
        base = text[0] == '0' && (text[1] == 'x' || text[1] == 'X') ? 16 : 10;
        if (base == 16) text += 2;
    }
    for (; isxdigit((unsigned char)*text) && digit(*text) < (unsigned)base; text++) value = value * (unsigned)base + digit(*text);
    *end = (char *)text;
    return value;
}

/* ---- the one file, which is only read */

extern const char input_start[], input_end[]; /* input.S's */

struct file {
    const char *next;
};

FILE *const stderr = NULL; /* what is printed all goes one way */

FILE *fopen(const char *restrict path, const char *restrict way)
{
    static struct file input;
    (void)path;
    (void)way;
    input.next = input_start;
    return &input;
}

char *fgets(char *restrict line, int size, FILE *restrict file)
{
    char *to = line;
    if (file->next == input_end) return NULL;
    while (to < line + size - 1 && file->next < input_end) {
        *to++ = *file->next++;
        if (to[-1] == '\n') break;
    }
    *to = '\0';
    return line;
}

int fclose(FILE *file)
{
    (void)file;
    return 0;
}

/* ---- what is printed */

static void put_number(unsigned long long value, unsigned base, int width)
{
    char digits[24];
    int count = 0;
    do {
        digits[count++] = "0123456789abcdef"[value % base];
        value /= base;
    } while (value != 0);
    while (count < width) digits[count++] = '0';
    while (count > 0) board_put(digits[--count]);
}

/* %s, and %u and %x with `0` and a width of one digit, `l` or `ll`. */
static void put_format(const char *format, va_list words)
{
    for (; *format != '\0'; format++) {
        int width = 0, longs = 0;
        if (*format != '%') {
            board_put(*format);
            continue;
        }
        if (*++format == '0') {
            width = *++format - '0';
            format++;
        }
        for (; *format == 'l'; format++) longs++;
        if (*format == 's') board_say(va_arg(words, const char *));
        else if (*format != 'u' && *format != 'x') board_off(4);
        else put_number(longs > 0 ? va_arg(words, unsigned long long) : va_arg(words, unsigned), *format == 'u' ? 10 : 16, width);
    }
}

int printf(const char *restrict format, ...)
{
    va_list words;
    va_start(words, format);
    put_format(format, words);
    va_end(words);
    return 0;
}

int fprintf(FILE *restrict file, const char *restrict format, ...)
{
    va_list words;
    (void)file;
    va_start(words, format);
    put_format(format, words);
    va_end(words);
    return 0;
}
