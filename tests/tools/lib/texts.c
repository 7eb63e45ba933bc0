/* Bytes, texts and numbers. */
#include <errno.h>
#include <limits.h>
#include <stdio.h>
#include <stdlib.h>
#include <string.h>
#include <strings.h>

void *memrchr(const void *, int, size_t);
void *memmem(const void *, size_t, const void *, size_t);

static const char text[] = "the cat sat on the mat";

static long at(const void *found) { return found ? (const char *)found - text : -1; }
static int sign(int n) { return (n > 0) - (n < 0); }

static void searches(void)
{
    printf("%ld %ld %ld %ld\n", at(memchr(text, 'a', 22)), at(memchr(text, 'z', 22)), at(memchr(text, 0, 23)), at(memchr(text, 't', 0)));
    printf("%ld %ld\n", at(memrchr(text, 't', 22)), at(memrchr(text, 't', 1)));
    printf("%ld %ld %ld %ld\n", at(memmem(text, 22, "at", 2)), at(memmem(text, 22, "", 0)), at(memmem(text, 2, "the", 3)), at(memmem(text, 22, "mat", 3)));
    printf("%ld %ld %ld %ld\n", at(strstr(text, "sat")), at(strstr(text, "")), at(strstr(text, "mats")), at(strstr("aab", "ab") ? text + 1 : 0));
    printf("%u %u %u %u\n", (unsigned)strspn(text, "eht"), (unsigned)strspn(text, ""), (unsigned)strcspn(text, "ac"), (unsigned)strcspn(text, ""));
    printf("%ld %ld\n", at(strpbrk(text, "xsc")), at(strpbrk(text, "xyz")));
    printf("%u %u %u\n", (unsigned)strnlen(text, 5), (unsigned)strnlen(text, 50), (unsigned)strnlen(text, 0));
    printf("%d %d %d %d\n", sign(strcasecmp("AbC", "aBd")), sign(strcasecmp("x", "X")), sign(strncasecmp("abX", "ABy", 2)), sign(strcoll("b", "a")));
}

static void tokens(void)
{
    char line[] = ",,one, two;;three,";
    char other[] = "k=v;;x";
    char *rest, *it, *walk = other;
    for (it = strtok(line, ",; "); it; it = strtok(NULL, ",; "))
        printf("[%s]", it);
    for (it = strtok_r(line, "n", &rest); it; it = strtok_r(NULL, "n", &rest))
        printf("<%s>", it);
    while ((it = strsep(&walk, "=;")))
        printf("{%s}", it);
    printf(" %d\n", walk == NULL);
}

static void copies(void)
{
    char room[20] = "ab";
    char *copy = strdup("copied"), *part = strndup("partial", 4);
    strncat(room, "cdef", 2);
    strncat(room, "g", 9);
    printf("%s %s %s\n", room, copy, part);
    free(copy);
    free(part);
    printf("%ld %s\n", (long)(stpcpy(room, "xyz") - room), room);
    printf("%d %d %d %d\n", ffs(0), ffs(1), ffs(96), ffs(INT_MIN));
}

static void number(const char *from, int base)
{
    char *end;
    errno = 0;
    long value = strtol(from, &end, base);
    printf("%ld+%d!%d ", value, (int)(end - from), errno);
    errno = 0;
    unsigned long other = strtoul(from, &end, base);
    printf("%lu+%d!%d\n", other, (int)(end - from), errno);
}

int main(void)
{
    searches();
    tokens();
    copies();
    number("  42rest", 10);
    number("-42", 10);
    number("0x1fz", 0);
    number("0x1fz", 16);
    number("0xg", 16);
    number("0777", 0);
    number("08", 0);
    number("+z", 36);
    number("", 10);
    number("  -", 10);
    number("2147483647", 10);
    number("2147483648", 10);
    number("-2147483648", 10);
    number("-2147483649", 10);
    number("4294967295", 10);
    number("4294967296", 10);
    number("-4294967295", 10);
    number("99999999999999999999x", 10);
    number("101", 2);
    printf("%ld %ld %ld\n", atol("-12x"), labs(-5), labs(7));
    return 0;
}
