#ifndef SABER_STRINGS_H
#define SABER_STRINGS_H
#include <stddef.h>
int strcasecmp(const char *, const char *);
int strncasecmp(const char *, const char *, size_t);
int ffs(int);
#define bzero(place, size) ((void)memset(place, 0, size))
#define bcopy(from, to, size) ((void)memmove(to, from, size))
#define bcmp(left, right, size) memcmp(left, right, size)
#define index(text, byte) strchr(text, byte)
#define rindex(text, byte) strrchr(text, byte)
#endif
