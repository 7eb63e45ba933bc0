#include <stdint.h>
uint64_t wide;
int64_t also;
static int scan(const char *text)
{
    double value = 1.5;
    return (int) value + *text;
}
static int (*const table[2])(const char *) = { scan, scan };
int by_table(const char *text)
{
    return table[0](text);
}
static int between(const char *text)
{
    return scan(text);
}
int by_call(const char *text)
{
    return between(text);
}
int other(void)
{
    double d = 2.0;
    return (int) d;
}
int lonely(void)
{
    return 3;
}
