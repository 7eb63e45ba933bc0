struct t {
    int n;
};

void f(struct t *p);

int main(void)
{
    struct t s;

    f(&s);
    return s.n;
}
