int main(void)
{
    int n = 0, *p;

again:
    n++;
    if (n == 2)
        goto out;
    p = &n;
    goto again;
out:
    return *p;
}
