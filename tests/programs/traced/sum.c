void fill(int *a, int n);

int sum(int *a)
{
    int i;
    int s = 0;

    for (i = 0; i < 10; i++)
        s = s + a[i];
    return s;
}

int main(void)
{
    int a[10];

    fill(a, 9);
    return sum(a);
}
