#include "core.h"
static char text[] = "ab";
const char *names[] = { "one", text + 1 };
int total;
struct pair last = { 1, 2 };
int add(int a, char b) {
    int sum = a + b;
    {
        const struct pair p = { 3 };
        sum += p.first;
    }
    return sum;
}
