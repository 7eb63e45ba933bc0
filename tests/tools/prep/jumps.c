/* Jumps into blocks, and cases inside of other statements. */
#include <stdio.h>

static int copy(char *to, const char *from, int count)
{
    int rounds = (count + 3) / 4;
    if (count == 0)
        return 0;
    switch (count % 4) {
    case 0:
        do {
            *to++ = *from++;
    case 3:
            *to++ = *from++;
    case 2:
            *to++ = *from++;
    case 1:
            *to++ = *from++;
        } while (--rounds > 0);
    }
    return count;
}

struct machine {
    int state, at;
};

static int next(struct machine *m, const char *in, int size, int *out)
{
    int i = 0;
    switch (m->state) {
    case 0:
        for (m->at = 0; m->at < 3; m->at++) {
            while (1) {
                if (i == size)
                    return m->state = 1, i;
    case 1:
                {
                    char c = in[i++];
                    if (c == '.')
                        continue;
                    if (c == '!')
                        break;
                    *out = *out * 10 + (c - '0');
                }
                switch (*out % 4) {
                case 3:
                    *out += 1;
                    break;
                default:
                    *out += 2;
                }
            }
        }
        m->state = 7;
    case 7:
        return i;
    default:
        return -1;
    }
}

static int into_loop(int n)
{
    int i, sum = 0;
    if (n > 5)
        goto middle;
    for (i = 0; i < 4; i++) {
        int twice = 2 * i;
        sum += twice;
    middle:
        if (n > 5) {
            i = 2;
            n = 0;
        }
        sum += 100;
    }
    return sum;
}

static int into_else(int n)
{
    if (n == 0)
        goto other;
    if (n < 3) {
        n += 10;
    } else {
        n += 20;
    other:
        n += 5;
    }
    return n;
}

static int into_case(int n)
{
    int seen = 0;
    if (n < 0)
        goto negative;
    switch (n) {
    case 0:
        seen = 1;
        break;
    case 1:
        seen = 2;
    negative:
        seen += 10;
    default:
        seen += 100;
    }
    return seen;
}

static int nested(int n)
{
    int sum = 0, j;
    switch (n) {
        for (j = 0; j < 3; j++) {
            if (j == 1) {
    case 5:
                j = 1;
                sum += 7;
            } else
    case 6: {
                j = 2;
                sum += 3;
            }
            sum += 1000;
        }
    default:
        sum += 1;
    }
    return sum;
}

int main(void)
{
    char to[12];
    int n, k, out = 0;
    struct machine m = { 0, 0 };
    for (n = 0; n < 10; n++) {
        for (k = 0; k < 11; k++)
            to[k] = '-';
        to[11] = 0;
        copy(to, "abcdefghijk", n);
        puts(to);
    }
    n = next(&m, "12.3", 4, &out);
    printf("%d %d %d %d\n", n, out, m.state, m.at);
    n = next(&m, "4!5!.6!", 7, &out);
    printf("%d %d %d %d\n", n, out, m.state, m.at);
    printf("%d %d\n", next(&m, "", 0, &out), into_loop(1));
    printf("%d %d %d %d\n", into_loop(9), into_else(0), into_else(1), into_else(4));
    printf("%d %d %d %d\n", into_case(-1), into_case(0), into_case(1), into_case(2));
    printf("%d %d %d\n", nested(5), nested(6), nested(1));
    return 0;
}
