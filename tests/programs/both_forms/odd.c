/* Two modules that call each other as deep as they are asked to. */
int is_even(int n);

int is_odd(int n)
{
    return n == 0 ? 0 : is_even(n - 1);
}

int ring[8];
int at;

void put(int n)
{
    ring[at++ & 7] = n;
}
