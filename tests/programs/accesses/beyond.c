int main(void)
{
    int a[10];

    return a[10];
}
