/* Bit-fields: values are cut to their bits by each change. */
#include <stdio.h>

enum color { RED, GREEN, BLUE };

struct flags {
    unsigned int low : 3;
    unsigned int : 2;
    signed int middle : 4;
    unsigned int bit : 1;
    unsigned char byte : 7;
    enum color color : 2;
    unsigned int whole : 32;
    int other;
};

static struct flags start = { 5, -3, 1, 100, BLUE, 4000000000u, 9 };

static int step(struct flags *f)
{
    int before = f->low++;
    int after = ++f->middle;
    f->bit ^= 1;
    f->byte += 60;
    f->whole <<= 1;
    if (f->low > 6)
        f->low -= 7;
    else
        f->middle--;
    return before * 100 + after;
}

int main(void)
{
    struct flags f = start, g;
    int i;
    for (i = 0; i < 14; i++) {
        int r = step(&f);
        printf("%d %u %d %u %d %u\n", r, f.low, f.middle, f.bit, f.byte, f.whole);
    }
    g = f;
    g.low = 13;
    g.middle = 9;
    g.color = BLUE;
    g.color++;
    printf("%d %d %d %d\n", g.low, g.middle, g.other = 7 + 2, g.bit = 6);
    i = g.low-- - 1;
    printf("%d %d %d\n", i, g.low, (int)start.color);
    printf("%d %d\n", g.color, g.color == 3);
    printf("%d %u %d\n", start.middle, start.whole, f.other);
    return 0;
}
