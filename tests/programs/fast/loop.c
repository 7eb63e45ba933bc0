int main(void)
{
    int i, s;
    s = 0;
    for (i = 0; i < 1000; i++)
        s = s + 2 * 3;
    return s % 256;
}
