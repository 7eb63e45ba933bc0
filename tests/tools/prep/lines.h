/* Code in a header. */

static int inside(const int *at, int n)
{
    int sum = 0;

    for (int i = 0; i <= n; i++) {
        sum += at[i];
    }
    return sum;
}
