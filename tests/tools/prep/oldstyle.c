/* Definitions of the old style, and what they left out. */
#include <stdio.h>

#define local static

int add();
local struct pair *swap();

struct pair {
    int left, right;
};

static counter;

int add(a, b)
    int a;
    int b;
{
    return a + b;
}

local int first(a, b)
    int a; char b;
{
    counter++;
    return a * 100 + b;
}

static int narrow(c, s, text)
    unsigned char c;
    short s;
    const char *text;
{
    int extra = 1;
    return c + s + text[0] + extra;
}

local struct pair *swap(p)
    struct pair *p;
{
    int spare = p->left;
    p->left = p->right;
    p->right = spare;
    return p;
}

static int apply(f, values, n)
    int (*f)(int, int);
    int values[], n;
{
    int i, sum = 0;
    for (i = 0; i < n; i++)
        sum = f(sum, values[i]);
    return sum;
}

static plain(x)
{
    return x + 1;
}

main()
{
    struct pair p;
    int values[3];
    p.left = 1; p.right = 2;
    values[0] = 4; values[1] = 5; values[2] = 6;
    printf("%d %d %d\n", add(1, 2), first(3, 'c'), narrow(300, 70000, "A"));
    printf("%d\n", swap(&p)->left);
    printf("%d %d\n", p.right, apply(add, values, 3));
    printf("%d %d\n", plain(6), counter);
    return 0;
}
