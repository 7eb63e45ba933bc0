int main(void)
{
    int a[10];

    return (&a[10] - &a[0]) + (&a[1] - &a[3]);
}
