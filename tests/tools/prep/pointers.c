/* Numbers in pointers, order and search. */
#include <errno.h>
#include <stdint.h>
#include <stdio.h>
#include <stdlib.h>
#include <string.h>

#define FAILED ((void *)-1)

static void *answer(int kind) { return kind == 0 ? NULL : kind < 0 ? FAILED : (void *)(intptr_t)kind; }
static int order(const void *a, const void *b) { return *(const int *)a - *(const int *)b; }
static int by_int(const int *a, const int *b) { return *b - *a; }
typedef int (comparing)(const void *, const void *);
static comparing *chosen = (comparing *)order;
static void *const marks[2] = { (void *)1, (void *)7 };

int main(void)
{
    int values[] = { 5, 3, 9, 1, 7, 3, 8 }, wanted = 7;
    qsort(values, 7, sizeof *values, order);
    for (int i = 0; i < 7; i++)
        printf("%d ", values[i]);
    comparing *other = (comparing *)by_int;
    printf("%d %d\n", chosen(values, values + 1), ((int (*)(const int *, const int *))other)(values, values + 1));
    int *found = bsearch(&wanted, values, 7, sizeof *values, order);
    printf("%d %d\n", (int)(found - values), bsearch(&errno, values, 7, sizeof *values, order) == NULL);
    printf("%d %d %d\n", answer(0) == NULL, answer(-2) == FAILED, (int)(intptr_t)answer(42));
    printf("%d %d %d\n", answer(7) == marks[1], answer(1) == marks[1], marks[0] == NULL);
    errno = 0;
    unsigned long most = strtoul("99999999999", NULL, 10);
    printf("%lu %d %s\n", most, errno == ERANGE, strerror(0));
    char *copy = strdup("a,b;c");
    for (char *it = strtok(copy, ",;"); it; it = strtok(NULL, ",;"))
        puts(it);
    free(copy);
    return 0;
}
