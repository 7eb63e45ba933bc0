#include <stdio.h>
#include <stdlib.h>
#include <string.h>

struct pair { int first; unsigned char second; short third; };

int weighted(int a, int b, int c, int d, int e, int f, int g, int h, int i, int j);
int added(const struct pair *p);
void changed(struct pair *p);
int applied(int (*f)(int, int), int n, int start);
unsigned spread(unsigned x);
int is_odd(int n);
void put(int n);

extern int ring[8];

int is_even(int n)
{
    return n == 0 ? 1 : is_odd(n - 1);
}

static int product(int a, int b)
{
    put(a);
    return a * b;
}

int main(void)
{
    struct pair p = { 40, 1, 1 };
    char *text = malloc(20);
    int i;

    printf("%d\n", weighted(1, 2, 3, 4, 5, 6, 7, 8, 9, 10));
    printf("%d\n", added(&p));
    changed(&p);
    printf("%d %d %d %d\n", p.first, p.second, p.third, added(&p));
    printf("%d\n", applied(product, 10, 1));
    for (i = 0; i < 8; i++)
        printf("%d ", ring[i]);
    printf("\n%u\n", spread(1));
    printf("%u\n", spread(1));
    printf("%d %d\n", is_even(100), is_odd(100));
    strcpy(text, "both");
    strcat(text, " forms");
    printf("%s %d\n", text, (int)strlen(text));
    free(text);
    return applied(product, 3, 7);
}
