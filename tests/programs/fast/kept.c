short total;
int given;

int id(int n)
{
    given = given + n;
    return n;
}

int mixed(char c, short s, unsigned char u, int *p, const int k, int n)
{
    int a, b, e;
    char d;
    a = c;
    b = s;
    e = u;
    d = 200;
    d += 100;
    s += 30000;
    c--;
    u++;
    n = n * 2;
    *p = a + b + e;
    total = s;
    return d + c + u + k + n;
}

int called(int a, int b, int c, int d, int e)
{
    int t;
    t = id(a) + id(b);
    a = t;
    b = id(a) - c;
    id(b);
    while (d-- > 0) {
        c = c + id(d);
        e += c;
    }
    return a + b * 2 + c * 3 + d * 4 + e;
}

int jumps(int n)
{
    int i, s;
    i = 0;
    s = 0;
again:
    switch (i % 3) {
    case 0:
        s += i;
        break;
    case 1:
        s -= 2;
    default:
        s = s * 2;
    }
    if (++i < n)
        goto again;
    return s;
}

int main(void)
{
    int x, r, i;
    int (*where)(int);
    x = 1;
    r = 0;
    for (i = 0; i < 5; i++) {
        r += mixed(i - 1, i * 1000, 255, &x, 7, i);
        r ^= x;
    }
    where = id;
    return r + total + called(1, 2, 3, 4, 5) * 100 + given + jumps(9) + where(3);
}
