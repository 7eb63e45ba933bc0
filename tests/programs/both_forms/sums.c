/* Called from either form: many arguments, structures by address, a call back. */
struct pair { int first; unsigned char second; short third; };

int weighted(int a, int b, int c, int d, int e, int f, int g, int h, int i, int j)
{
    return a + 2 * b + 3 * c + 4 * d + 5 * e + 6 * f + 7 * g + 8 * h + 9 * i + 10 * j;
}

int added(const struct pair *p)
{
    return p->first + p->second + p->third;
}

void changed(struct pair *p)
{
    p->first = p->first * 2;
    p->second = 255;
    p->third = -3;
}

int applied(int (*f)(int, int), int n, int start)
{
    int i;

    for (i = 1; i <= n; i++)
        start = f(start, i);
    return start;
}

unsigned spread(unsigned x)
{
    static unsigned times;

    times++;
    return x * 2654435761u + times;
}
