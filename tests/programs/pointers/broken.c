int main(void)
{
    int a[10];

    return (int *)&((char *)a)[6] - a;
}
