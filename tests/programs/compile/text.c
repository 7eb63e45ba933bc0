/* The text of `long_text` is longer than 524,288 bytes: 32,768 statements of more than 16 each. */
#define A1 x = x * x + y;
#define A2 A1 A1 A1 A1 A1 A1 A1 A1
#define A3 A2 A2 A2 A2 A2 A2 A2 A2
#define A4 A3 A3 A3 A3 A3 A3 A3 A3
#define A5 A4 A4 A4 A4 A4 A4 A4 A4
#define A6 A5 A5 A5 A5 A5 A5 A5 A5

int short_text(int x) { return x; }

int
long_text(unsigned x, unsigned y)
{
    A6
    return 0;
}
