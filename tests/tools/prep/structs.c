/* Structures as parameters and results. */
#include <stdio.h>
#include <stdlib.h>

typedef struct { long real, imaginary; } complex;

struct list { int count; int items[4]; };
union word { unsigned int whole; unsigned char bytes[4]; };

static complex made(long real, long imaginary)
{
    complex c;
    c.real = real;
    c.imaginary = imaginary;
    return c;
}

static complex times(complex a, complex b)
{
    return made(a.real * b.real - a.imaginary * b.imaginary, a.real * b.imaginary + a.imaginary * b.real);
}

static complex power(const complex base, int n)
{
    if (n == 0)
        return made(1, 0);
    return times(power(base, n - 1), base);
}

static struct list pushed(struct list l, int item)
{
    l.items[l.count++] = item;
    return l;
}

static int first_byte(union word w)
{
    w.whole += 1;
    return w.bytes[0];
}

static struct list none(void)
{
    struct list l = { 0 };
    return l;
}

extern struct list nothing(void) __attribute__((alias("none")));
extern struct list with(const struct list l, int item) __attribute__((alias("pushed")));

/* the same through pointers to functions */
typedef int (*measure)(struct list, void *user);
typedef long twice(complex c, long (*inner)(complex, long), long n);
static struct { long (*first)(complex); measure second; void (*table[2])(const complex c, long); } calls;

static long sum(complex c) { c.real += c.imaginary; return c.real; }
static int counted(struct list l, void *user) { *(int *)user += l.count; l.count = 0; return l.items[1]; }
static void show(const complex c, long n) { printf("%ld %ld %ld\n", c.real, c.imaginary, n); }
static long scaled(complex c, long n) { return (c.real + c.imaginary) * n; }
static long both(complex c, long (*inner)(complex, long), long n) { return inner(c, n) + (*inner)(c, n + 1); }

static complex *at(complex *all, int n) { return &all[n]; }

int main(void)
{
    complex all[3] = { { 1, 2 }, { 3, -1 }, { 0, 0 } };
    struct list l = none();
    union word w;
    w.whole = 0x010203ff;
    all[2] = times(*at(all, 0), all[1]);
    printf("%ld %ld\n", all[2].real, all[2].imaginary);
    printf("%ld %ld\n", power(all[0], 5).real, power(times(all[0], all[0]), 2).imaginary);
    l = pushed(pushed(pushed(l, 5), 6), pushed(l, 9).items[0]);
    printf("%d %d %d %d\n", l.count, l.items[0], l.items[1], l.items[2]);
    printf("%d %x\n", first_byte(w), w.whole);
    printf("%d\n", pushed(l.count > 2 ? l : none(), 1).count);
    printf("%d\n", with(with(nothing(), 7), 8).items[1]);
    div_t d = div(-17, 5);
    ldiv_t e = ldiv(17L, -5L);
    printf("%d %d %ld %ld\n", d.quot, d.rem, e.quot, e.rem);
    twice *f = both;
    int count = 4;
    calls.first = sum;
    calls.second = counted;
    calls.table[0] = calls.table[1] = show;
    printf("%ld %d\n", calls.first(made(3, 4)), (*calls.second)(l, &count));
    calls.table[l.count - 2](times(all[1], made(1, 0)), count);
    printf("%ld\n", f(all[0], scaled, 2));
    return 0;
}
