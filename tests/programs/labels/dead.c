int main(void)
{
    int *p;

    p = 0;
    {
        int x;

        x = 5;
        p = &x;
        goto out;
    }
out:
    return *p;
}
