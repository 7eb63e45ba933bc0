#include <stdio.h>
#include <string.h>
struct inner { int a; int b; };
struct buffer { const size_t size; size_t used; char *const data; const struct inner in; const char name[6]; int (*const call)(int); const int list[3]; };
static int twice(int n) { return 2 * n; }
static int take(struct buffer b) { return (int)b.size + b.in.b; }
static int f(size_t size, char *buffer, int k)
{
    struct buffer buf = {size, 0, buffer, {k, k + 1}, "abc", twice, {k, k}};
    const struct buffer other = {.data = buffer, .size = size + 1, .list = {[1] = k}};
    printf("%u %u %d %d %d %s %d %d %d\n", (unsigned)buf.size, (unsigned)buf.used, buf.data == buffer, buf.in.a, buf.in.b, buf.name, buf.call(k), buf.list[1], buf.list[2]);
    printf("%u %d %d %d %d\n", (unsigned)other.size, other.list[0], other.list[1], other.call == 0, other.in.a);
    return take(buf) + take((struct buffer){size, 1, buffer, {k, 9}});
}
int main(void) { char c; printf("%d\n", f(5, &c, 3)); return 0; }
