int main(void)
{
    int *p;

    {
        int x;

        x = 5;
        p = &x;
        goto out;
    }
out:
    return *p;
}
