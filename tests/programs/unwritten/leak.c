int *leak(void)
{
    int x;

    x = 5;
    return &x;
}

void use(void)
{
    int y;

    y = 6;
}
