int main(void)
{
    int a[10];

    return *(int *)&((char *)a)[1];
}
