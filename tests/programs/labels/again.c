int main(void)
{
    int i;

    i = 0;
again:
    i++;
    if (i < 3)
        goto again;
    return i;
}
