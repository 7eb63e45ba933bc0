// The C of 1999 that most files use.
#include <assert.h>
#include <inttypes.h>
#include <stdbool.h>
#include <stddef.h>
#include <stdint.h>
#include <stdio.h>
#include <string.h>

static_assert(sizeof(uint32_t) == 4, "four bytes");

struct point { int x, y; char name[6]; struct { int low, high; } range; };

static const struct point origin = { .y = 2, .name = { [1] = 'b', [0] = 'a' }, .range.high = 9 };
static int table[] = { [4] = 40, 50, [1] = 10, 20 };
static const char *const words[3] = { [2] = "two", [0] = "zero" };
static struct point *const shared = &(struct point){ .x = 7, .range = { 1, 2 } };
static int *const list = (int[]){ 3, 1, 2 };

static inline int larger(int a, int b) { return a > b ? a : b; }

static void fill(char *restrict to, const char *restrict from, size_t size)
{
    for (size_t i = 0, j = size; i < size; i++, j--)
        to[i] = from[j - 1];
}

static int total(const int *values, int count)
{
    int sum = 0;
    for (int i = 0; i < count; ++i) {
        if (values[i] < 0)
            continue;
        sum += values[i];
        int twice = 2 * values[i];
        if (twice > 100)
            break;
    }
    return sum;
}

static int labelled(int n)
{
    if (n < 0)
        goto out;
    int square = n * n;
    const int more = square + 1;
    for (int k = 0; k < 3; k++)
        square += more;
    return square;
out:
    printf("out of %s\n", __func__);
    int left = -n;
    return left;
}

static int chosen(int n)
{
    switch (n) {
    case 1:
        n = 5;
        int inner = n * 2;
        return inner;
    case 2:
        return 22;
    default: ;
        int last = n + 1;
        return last;
    }
}

static int shadowed(int n)
{
    int result = n;
    {
        result += n;
        int n = 100;
        result += n;
        goto end;
    end:
        result += n;
    }
    return result;
}

static struct point moved(struct point from, int by)
{
    from.x += by;
    return (struct point){ .x = from.x, .y = from.y + by };
}

int main(void)
{
    printf("%d %d %s %d %d\n", origin.x, origin.y, origin.name, origin.range.low, origin.range.high);
    for (unsigned i = 0; i < sizeof table / sizeof *table; i++)
        printf("%d%c", table[i], i + 1 < sizeof table / sizeof *table ? ' ' : '\n');
    printf("%s %d %s %d %d %d\n", words[0], words[1] == NULL, words[2], shared->x, shared->range.high, list[2]);
    bool some = 256, none = 0 * 2;
    some = some & 2 ? 8 : some;
    _Bool pointer = words[1];
    printf("%d %d %d %zu %d\n", some, none, pointer, sizeof(bool), (bool)0x100);
    char back[5] = { 0 };
    fill(back, "abcd", 4);
    int values[] = { 1, larger(2, 3), -4, table[4], 60, 70 };
    printf("%s %d %d %d\n", back, total(values, 6), labelled(3), labelled(-4));
    printf("%d %d %d %d\n", chosen(1), chosen(2), chosen(3), shadowed(5));
    struct point p = { back[0], .y = values[1], .name = "xyz", .range = { .high = table[1] } };
    printf("%d %d %s %d %d\n", p.x, p.y, p.name, p.range.low, p.range.high);
    p = moved(p, 10);
    printf("%d %d %d\n", p.x, p.y, moved((struct point){ .x = 1 }, larger(2, 4)).x);
    struct point *q = &(struct point){ .name = "lit", .x = p.x };
    printf("%d %d %s\n", q->x, q->y, q->name);
    for (int round = 0; round < 2; round++) {
        int *fresh = (int[3]){ round, [2] = 5 };
        fresh[1] += 3;
        printf("%d %d %d\n", fresh[0], fresh[1], fresh[2]);
    }
    uint8_t small = 250;
    small += 10;
    int16_t half = (int16_t)70000;
    printf("%" PRIu8 " %" PRId16 " %" PRIx32 " %i\n", small, half, UINT32_MAX - UINT32_C(1), INT8_MIN);
    uintptr_t flags = 0x10u | 1;
    volatile int busy = 3;
    while (busy > 0)
        busy--;
    printf("%u %d %zu\n", (unsigned)flags, busy, offsetof(struct point, range));
    struct { int a; union { int b; char c[4]; } u; } odd = { .a = 1, .u.c = { 1, 2 } };
    odd.u.c[2] = (char)(odd.a + 4);
    printf("%x\n", (unsigned)odd.u.b);
    return 0;
}
