int other(void), by_call(const char *text), lonely(void);
int user(void)
{
    return other();
}
int main(void)
{
    return lonely() + (0 ? user() : 0);
}
