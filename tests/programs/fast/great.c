int main(void)
{
    int x;
    x = 2147483647 + 1;
    return 0;
}
