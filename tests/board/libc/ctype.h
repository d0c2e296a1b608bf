/* ctype.h: see libc.c. */
#ifndef CTYPE_H
#define CTYPE_H

int isdigit(int c);
int isxdigit(int c);

#endif
