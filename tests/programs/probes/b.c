int add(int a, int b);

int twice(int n)
{
    return add(n, n);
}
