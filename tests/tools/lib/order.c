/* Order, search and quotients. */
#include <stdio.h>
#include <stdlib.h>
#include <string.h>

struct item { int key; char name[7]; };

static int by_number(const void *a, const void *b)
{
    int left = *(const int *)a, right = *(const int *)b;
    return (left > right) - (left < right);
}

static int by_name(const void *a, const void *b)
{
    return strcmp(((const struct item *)a)->name, ((const struct item *)b)->name);
}

static unsigned seed = 1;
static int random_number(int below)
{
    seed = seed * 1103515245u + 12345u;
    return (int)((seed >> 16) % (unsigned)below);
}

int main(void)
{
    int values[60], size, i, wrong = 0;
    struct item items[12], key;
    for (size = 0; size <= 60; size++) {
        int sum = 0, after = 0;
        for (i = 0; i < size; i++)
            sum += values[i] = random_number(size % 3 ? 1000 : 4) - 2;
        qsort(values, size, sizeof *values, by_number);
        for (i = 0; i < size; i++) {
            after += values[i];
            wrong += i > 0 && values[i - 1] > values[i];
        }
        wrong += sum != after;
    }
    printf("%d\n", wrong);
    for (i = 0; i < 60; i++)
        values[i] = 3 * i;
    for (i = -1; i < 180; i++) {
        int *found = bsearch(&i, values, 60, sizeof *values, by_number);
        wrong += i % 3 == 0 ? !found || *found != i : found != NULL;
    }
    for (i = 0; i < 12; i++) {
        items[i].key = i;
        sprintf(items[i].name, "n%c%d", 'a' + (i * 7) % 12, i);
    }
    qsort(items, 12, sizeof *items, by_name);
    for (i = 0; i < 12; i++)
        printf("%s:%d ", items[i].name, items[i].key);
    strcpy(key.name, "nc2");
    printf("%d %d\n", wrong, bsearch(&key, items, 12, sizeof *items, by_name) == NULL);
    div_t d = div(17, -5);
    ldiv_t e = ldiv(-17L, -5L);
    printf("%d %d %ld %ld\n", d.quot, d.rem, e.quot, e.rem);
    return 0;
}
