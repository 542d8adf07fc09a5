/* What the tests need of <stdio.h>. */
#ifndef BARE_STDIO_H
#define BARE_STDIO_H
int printf(const char *, ...);
int scanf(const char *, ...);
int putchar(int);
#endif
