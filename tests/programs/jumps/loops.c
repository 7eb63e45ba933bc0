int main(void)
{
    int i, n;

    i = n = 0;
    while (1) {
        while (1) {
            i++;
            if (i == 3)
                goto done;
            n = n + i;
        }
        n = 100;
    }
    n = 200;
done:
    return n;
}
