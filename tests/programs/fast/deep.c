void mark(int n);

int calls;

int depth(int n)
{
    int k;
    k = n;
    calls++;
    mark(k);
    if (k < 5)
        k = depth(k + 1) + 1;
    return k * 10 + calls - 5;
}
