/* What compilers give beyond the standard, and odd constants. */
#include <stddef.h>
#include <stdio.h>
#include <string.h>

#pragma GCC diagnostic ignored "-Wall"

typedef unsigned char byte;
typedef __typeof__(sizeof 1) size;

static int twice(int x) __attribute__((const, unused));
static int twice(int x) { return 2 * x; }
extern int again(int) __attribute__((alias("global")));
int global(int x) { return x + 1; }

struct packet { short length; char data[]; };

static const wchar_t wide[] = L"hi!";

static void *skip(void *p, int n)
{
    p += n;
    p++;
    return p + 1 - 1;
}

static int signs(unsigned char *text, const char *other)
{
    char *plain = text;
    char *writable = other;
    return strlen(text) + plain[0] + (writable == other);
}

static void inner(void) { puts("inner"); }
static void outer(int n)
{
    if (n)
        return inner();
    puts("outer");
}

static const char *class_of(int c)
{
    switch (c) {
    case '0' ... '9':
        return "digit";
    case 'a' ... 'f': case 'A' ... 'F':
        return "letter";
    default:
        return "other";
    }
}

int main(void)
{
    char room[32];
    int number = 0b1011;
    __typeof__(number) c = 'x';
    const __typeof__(int *) nothing = 0;
    struct packet *packet = (struct packet *)room;
    byte bytes[4] = "abc";
    packet->length = 3;
    memcpy(packet->data, "xyz", 3);
    printf("%d %d %d %c\n", L'a', number, nothing == 0, c);
    printf("%d %d %u %d\n", 'ab', '\e', (unsigned)(sizeof wide / sizeof wide[0]), wide[1]);
    printf("%c %d %s\n", *(char *)skip(bytes, 1), signs(bytes, "q"), class_of('7'));
    printf("%s %s %d %d\n", class_of('c'), class_of('g'), again(4), twice(again(1)));
    printf("%d %.3s\n", packet->length, packet->data);
    __typeof__(packet->length) kept = packet->length + 300;
    printf("%d %d\n", kept, (__typeof__(packet->data[0]))kept);
    outer(0);
    outer(1);
    ;
    switch (number) {
    case 11:
        puts(__FUNCTION__);
    default:
    }
    return 0;
}
