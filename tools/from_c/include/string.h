/* The functions of <string.h> whose loops have a bound. A length has to be known where one is called: a constant, or a
 * value behind a test that it is below one. The functions are in runtime.c; one of the maker's takes its place. */
#ifndef MICROSYS_STRING_H
#define MICROSYS_STRING_H

#include <stddef.h>

void *memcpy(void *restrict to, const void *restrict from, size_t length);
void *memmove(void *to, const void *from, size_t length);
void *memset(void *at, int value, size_t length);
int memcmp(const void *one, const void *other, size_t length);
int strncmp(const char *one, const char *other, size_t most);
/* Of POSIX: the length of the text, and at most `most`. */
size_t strnlen(const char *text, size_t most);

#endif
