int depth(int n);

void mark(int n)
{
    n = n + 1;
}

int main(void)
{
    return depth(0);
}
