#include <assert.h>
int main(void)
{
    int i, n;
    i = 3;
    n = 2;
    assert(n < i);
    assert(i < n);
    return 0;
}
