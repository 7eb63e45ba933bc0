int twice(int n);

int add(int a, int b)
{
    return a + b;
}

int main(void)
{
    int i;
    int sum = 0;

    for (i = 1; i < 3; i++)
        sum = sum + twice(i);
    return sum;
}
