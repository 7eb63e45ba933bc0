/* What is not taken, each on a line of its own. */
#include <stdio.h>
#include "rest.h"
static double third(double x)
{
    return x / 3.0;
}
static int spin(int n)
{
    __asm__("nop");
    return n;
}
static int sized(int n)
{
    int room[n];
    room[0] = n;
    return room[0];
}
static int plain(int n)
{
    return n + 1;
}
int main(void)
{
    struct real r = { 3 };
    printf("%d\n", plain(r.n));
    if (r.n > 3)
        return spin(1) + sized(2) + ({ int k = 3; k; });
    return 0;
}
