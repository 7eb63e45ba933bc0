union word { int i; unsigned char b[4]; };

int main(void)
{
    union word x;

    x.i = 258;
    return x.b[0] + x.b[1];
}
