/* Prints what the C library's printf writes, a line for each: the format, the number and the text, with a bar behind each; or,
   with an argument, what its ctype calls answer: the first and the last of a range of characters, and the bits of its classes.
   Each of the 32 sets of flags stands at each of ten values; kinds go round, and widths, precisions and modifiers are taken
   by a generator. Build: gcc number.c */
#include <ctype.h>
#include <stdio.h>
#include <string.h>

enum { ROWS = 320 };
static const unsigned values[] = {0, 1, 7, 8, 0xff, 0x8000, 0xffff, 0x7fffffff, 0x80000000, 0xffffffff};
static const char *const precisions[] = {"", ".0", ".", ".3", ".12"};
static const char *const widths[] = {"", "9", "2", "14"};
static const char *const modifiers[] = {"", "h", "l"};

static int bits(int c) {
    int is[] = {isalnum(c), isalpha(c), iscntrl(c), isdigit(c), isgraph(c), islower(c),
                isprint(c), ispunct(c), isspace(c), isupper(c), isxdigit(c)};
    int bits = 0;
    for (int k = 0; k < 11; k++) bits |= (is[k] != 0) << k;
    return bits;
}

static void print_classes(void) {
    for (int c = 0, last; c < 256; c = last + 1) {
        for (last = c; last < 255 && bits(last + 1) == bits(c); last++) {}
        printf("%d %d %d\n", c, last, bits(c));
    }
}

int main(int count, char **words) {
    unsigned state = 1;
    (void)words;
    if (count > 1) {
        print_classes();
        return 0;
    }
    for (int row = 0; row < ROWS; row++) {
        char format[32] = "%", text[64];
        int flags = row % 32, kind = (row % 32 + row / 32) % 6;
        unsigned v;
        state = state * 1103515245u + 12345u;
        v = state / 65536u;
        for (int f = 0; f < 5; f++)
            if (flags >> f & 1) strncat(format, &"-+ #0"[f], 1);
        const char *width = widths[v % 4], *precision = precisions[v / 4 % 5], *modifier = modifiers[v / 20 % 3];
        unsigned value = values[row / 32];
        strcat(strcat(format, width), precision);
        int head = (int)strlen(format);
        strcat(format, modifier);
        strncat(format, &"diuoxX"[kind], 1);
        /* long has 32 bits in the table: an l is left out of the format that is run here */
        char run[32];
        sprintf(run, "%.*s%s%c", head, format, *modifier == 'h' ? "h" : "", "diuoxX"[kind]);
        sprintf(text, run, value);
        printf("%s|%u|%s|\n", format, value, text);
    }
    return 0;
}
