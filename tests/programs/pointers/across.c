int main(void)
{
    int a[4], b[4];

    return a - b;
}
