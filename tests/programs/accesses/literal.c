int main(void)
{
    *(char *)"a" = 66;
    return 0;
}
