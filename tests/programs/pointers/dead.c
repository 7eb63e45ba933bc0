int *leak(void)
{
    int x;

    return &x;
}

int main(void) { return leak() == 0; }
