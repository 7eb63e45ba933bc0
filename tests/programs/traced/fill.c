void fill(int *a, int n)
{
    int i;

    for (i = 0; i < n; i++)
        a[i] = i;
}
