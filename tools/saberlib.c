/* Functions of the C library that the product does not have, in the C that it reads: so `load saberlib` takes them, and
 * they are checked as everything else. Each does what ISO C or POSIX says, within what docs/LOADING.md tells of it.
 * saberio.c has those that read and write. */
#include <ctype.h>
#include <limits.h>
#include <stddef.h>
#include <stdio.h>
#include <stdlib.h>
#include <string.h>

/* ---- bytes ---- */

void *memchr(const void *place, int byte, size_t size)
{
    const unsigned char *at;
    size_t left;
    at = place;
    for (left = size; left > 0; left--) {
        if (*at == (unsigned char)byte)
            return (void *)at;
        at++;
    }
    return 0;
}

void *memrchr(const void *place, int byte, size_t size)
{
    const unsigned char *bytes;
    size_t left;
    bytes = place;
    for (left = size; left > 0; left--) {
        if (bytes[left - 1] == (unsigned char)byte)
            return (void *)(bytes + (left - 1));
    }
    return 0;
}

void *memmem(const void *place, size_t size, const void *wanted, size_t length)
{
    const char *bytes;
    size_t at;
    bytes = place;
    if (length > size)
        return 0;
    for (at = 0; at <= size - length; at++) {
        if (memcmp(bytes + at, wanted, length) == 0)
            return (void *)(bytes + at);
    }
    return 0;
}

void *mempcpy(void *to, const void *from, size_t size)
{
    memcpy(to, from, size);
    return (char *)to + size;
}

/* ---- texts ---- */

static size_t prefix(const char *text, const char *wanted)
{
    size_t at;
    for (at = 0; wanted[at] != 0; at++) {
        if (text[at] != wanted[at])
            return 0;
    }
    return 1;
}

char *strstr(const char *text, const char *wanted)
{
    while (!prefix(text, wanted)) {
        if (*text == 0)
            return 0;
        text++;
    }
    return (char *)text;
}

size_t strspn(const char *text, const char *set)
{
    size_t at;
    for (at = 0; text[at] != 0 && strchr(set, text[at]) != 0; at++)
        ;
    return at;
}

size_t strcspn(const char *text, const char *set)
{
    size_t at;
    for (at = 0; text[at] != 0 && strchr(set, text[at]) == 0; at++)
        ;
    return at;
}

char *strpbrk(const char *text, const char *set)
{
    size_t at;
    at = strcspn(text, set);
    return text[at] == 0 ? 0 : (char *)(text + at);
}

char *strtok_r(char *text, const char *set, char **rest)
{
    char *end;
    if (text == 0)
        text = *rest;
    if (text == 0)
        return 0;
    text = text + strspn(text, set);
    if (*text == 0) {
        *rest = 0;
        return 0;
    }
    end = text + strcspn(text, set);
    if (*end == 0) {
        *rest = 0;
    } else {
        *end = 0;
        *rest = end + 1;
    }
    return text;
}

char *strtok(char *text, const char *set)
{
    static char *rest;
    return strtok_r(text, set, &rest);
}

char *strsep(char **text, const char *set)
{
    char *first;
    char *end;
    first = *text;
    if (first == 0)
        return 0;
    end = first + strcspn(first, set);
    if (*end == 0) {
        *text = 0;
    } else {
        *end = 0;
        *text = end + 1;
    }
    return first;
}

size_t strnlen(const char *text, size_t size)
{
    size_t at;
    for (at = 0; at < size && text[at] != 0; at++)
        ;
    return at;
}

char *strncat(char *to, const char *from, size_t size)
{
    size_t length;
    char *end;
    length = strnlen(from, size);
    end = to + strlen(to);
    memcpy(end, from, length);
    end[length] = 0;
    return to;
}

char *strndup(const char *text, size_t size)
{
    size_t length;
    char *copy;
    length = strnlen(text, size);
    copy = malloc(length + 1);
    if (copy == 0)
        return 0;
    memcpy(copy, text, length);
    copy[length] = 0;
    return copy;
}

char *strdup(const char *text)
{
    return strndup(text, strlen(text));
}

char *stpcpy(char *to, const char *from)
{
    strcpy(to, from);
    return to + strlen(from);
}

char *strchrnul(const char *text, int byte)
{
    while (*text != 0 && *text != (char)byte)
        text++;
    return (char *)text;
}

int strcoll(const char *left, const char *right)
{
    return strcmp(left, right);
}

int strncasecmp(const char *left, const char *right, size_t size)
{
    size_t at;
    int difference;
    for (at = 0; at < size; at++) {
        difference = tolower(left[at]) - tolower(right[at]);
        if (difference != 0 || left[at] == 0)
            return difference;
    }
    return 0;
}

int strcasecmp(const char *left, const char *right)
{
    return strncasecmp(left, right, UINT_MAX);
}

size_t strlcpy(char *to, const char *from, size_t size)
{
    size_t length;
    size_t kept;
    length = strlen(from);
    if (size > 0) {
        kept = length < size ? length : size - 1;
        memcpy(to, from, kept);
        to[kept] = 0;
    }
    return length;
}

size_t strlcat(char *to, const char *from, size_t size)
{
    size_t length;
    length = strnlen(to, size);
    if (length == size)
        return size + strlen(from);
    return length + strlcpy(to + length, from, size - length);
}

char *strerror(int number)
{
    switch (number) {
    case 0:
        return "Success";
    case 2:
        return "No such file or directory";
    case 12:
        return "Cannot allocate memory";
    case 22:
        return "Invalid argument";
    case 33:
        return "Numerical argument out of domain";
    case 34:
        return "Numerical result out of range";
    }
    return "Unknown error";
}

int isblank(int byte)
{
    return byte == ' ' || byte == '\t';
}

/* ---- numbers ---- */

int errno;

int ffs(int value)
{
    unsigned int bits;
    int at;
    bits = value;
    for (at = 1; bits != 0; at++) {
        if (bits & 1)
            return at;
        bits = bits >> 1;
    }
    return 0;
}

static int digit(char byte)
{
    if (isdigit(byte))
        return byte - '0';
    if (byte >= 'a' && byte <= 'z')
        return byte - 'a' + 10;
    if (byte >= 'A' && byte <= 'Z')
        return byte - 'A' + 10;
    return 99;
}

/* What strtol and strtoul read: the number without its sign, whether there is a `-`, and whether it is too large. */
struct reading {
    const char *end;
    unsigned long value;
    int minus;
    int large;
};

static const char *begin(const char *at, int *base)
{
    if ((*base == 0 || *base == 16) && at[0] == '0' && (at[1] == 'x' || at[1] == 'X') && digit(at[2]) < 16) {
        *base = 16;
        return at + 2;
    }
    if (*base == 0)
        *base = at[0] == '0' ? 8 : 10;
    return at;
}

static void read_number(struct reading *reading, const char *text, int base)
{
    const char *at;
    const char *first;
    unsigned long next;
    reading->value = 0;
    reading->minus = 0;
    reading->large = 0;
    at = text;
    while (isspace(*at))
        at++;
    if (*at == '-' || *at == '+') {
        reading->minus = *at == '-';
        at++;
    }
    at = begin(at, &base);
    first = at;
    while (digit(*at) < base) {
        next = digit(*at);
        if (reading->value > (ULONG_MAX - next) / base)
            reading->large = 1;
        reading->value = reading->value * base + next;
        at++;
    }
    reading->end = at == first ? text : at;
}

long strtol(const char *text, char **end, int base)
{
    struct reading reading;
    unsigned long most;
    read_number(&reading, text, base);
    if (end != 0)
        *end = (char *)reading.end;
    most = reading.minus ? (unsigned long)LONG_MAX + 1 : LONG_MAX;
    if (reading.large || reading.value > most) {
        errno = 34;
        return reading.minus ? LONG_MIN : LONG_MAX;
    }
    if (!reading.minus)
        return reading.value;
    return reading.value == 0 ? 0 : -(long)(reading.value - 1) - 1;
}

unsigned long strtoul(const char *text, char **end, int base)
{
    struct reading reading;
    read_number(&reading, text, base);
    if (end != 0)
        *end = (char *)reading.end;
    if (reading.large) {
        errno = 34;
        return ULONG_MAX;
    }
    return reading.minus ? 0 - reading.value : reading.value;
}

long atol(const char *text)
{
    return strtol(text, 0, 10);
}

long labs(long value)
{
    return value < 0 ? -value : value;
}

/* Structures are no results here: saber-prep makes of a function that gives one a function that fills one. */
typedef struct {
    int quot;
    int rem;
} div_t;

typedef struct {
    long quot;
    long rem;
} ldiv_t;

void div(div_t *result, int left, int right)
{
    result->quot = left / right;
    result->rem = left % right;
}

void ldiv(ldiv_t *result, long left, long right)
{
    result->quot = left / right;
    result->rem = left % right;
}

/* Places that stand for small numbers where a program keeps a number in a pointer, as `(void *)3`; the last is -1. */
char saber_places[257];

void *saber_place(unsigned long number)
{
    if (number == 0)
        return 0;
    if (number == ULONG_MAX)
        return saber_places + 256;
    if (number > 255) {
        printf("saberlib: a number above 255 is made a pointer\n");
        exit(134);
    }
    return saber_places + number;
}

/* The number that was made a pointer. The addresses of other objects are no numbers here. */
unsigned long saber_place_number(const void *place)
{
    int at;
    if (place == 0)
        return 0;
    for (at = 1; at < 256; at++) {
        if (place == saber_places + at)
            return at;
    }
    if (place != saber_places + 256) {
        printf("saberlib: the address of an object is wanted as a number\n");
        exit(134);
    }
    return ULONG_MAX;
}

long random(void)
{
    long high;
    high = rand() & 32767;
    return high << 15 | (rand() & 32767);
}

void srandom(unsigned int seed)
{
    srand(seed);
}

/* ---- memory and order ---- */

void *reallocarray(void *place, size_t count, size_t size)
{
    if (size != 0 && count > UINT_MAX / size) {
        errno = 12;
        return 0;
    }
    return realloc(place, count * size);
}

/* A heap sort: it needs no further memory and never more than some count * log(count) comparisons. */
static void sink(char *base, size_t at, size_t count, size_t size, char *spare, int (*compare)(const void *, const void *))
{
    size_t child;
    memcpy(spare, base + at * size, size);
    while (2 * at + 1 < count) {
        child = 2 * at + 1;
        if (child + 1 < count && compare(base + child * size, base + (child + 1) * size) < 0)
            child++;
        if (compare(spare, base + child * size) >= 0)
            break;
        memcpy(base + at * size, base + child * size, size);
        at = child;
    }
    memcpy(base + at * size, spare, size);
}

void qsort(void *base, size_t count, size_t size, int (*compare)(const void *, const void *))
{
    char *bytes;
    char *spare;
    size_t at;
    if (count < 2 || size == 0)
        return;
    bytes = base;
    spare = malloc(2 * size);
    if (spare == 0)
        exit(134);
    for (at = count / 2; at > 0; at--)
        sink(bytes, at - 1, count, size, spare, compare);
    for (at = count - 1; at > 0; at--) {
        memcpy(spare + size, bytes + at * size, size);
        memcpy(bytes + at * size, bytes, size);
        memcpy(bytes, spare + size, size);
        sink(bytes, 0, at, size, spare, compare);
    }
    free(spare);
}

void *bsearch(const void *key, const void *base, size_t count, size_t size, int (*compare)(const void *, const void *))
{
    const char *bytes;
    size_t low;
    size_t high;
    size_t middle;
    int order;
    bytes = base;
    low = 0;
    high = count;
    while (low < high) {
        middle = low + (high - low) / 2;
        order = compare(key, bytes + middle * size);
        if (order == 0)
            return (void *)(bytes + middle * size);
        if (order < 0)
            high = middle;
        else
            low = middle + 1;
    }
    return 0;
}

/* ---- the end of a program ---- */

/* A program that aborts ends with the status that a shell shows for it, 128 and the number of the signal. */
void abort(void)
{
    exit(134);
}

void _Exit(int status)
{
    exit(status);
}

/* There is no environment. */
char *getenv(const char *name)
{
    return 0;
}
