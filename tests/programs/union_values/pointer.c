union both { int *p; int n; };

int main(void)
{
    int a;
    union both x;

    x.p = &a;
    return x.n;
}
