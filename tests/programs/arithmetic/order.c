int main(void)
{
    int i, a[4];

    i = 1;
    a[i] = i++ + i;
    return a[1];
}
