/* In place of a C library, for a program with none: see bare.c. */
#ifndef BARE_STDIO_H
#define BARE_STDIO_H

int printf(const char *format, ...);

#endif
