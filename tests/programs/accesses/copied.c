struct pair { int a, b; };

void copy(struct pair *to, struct pair *from);

int main(void)
{
    struct pair x, y;

    x.a = 1;
    copy(&y, &x);
    return y.b;
}
