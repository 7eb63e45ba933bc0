union t {
    int n;
};

void f(union t *p)
{
    p->n = 1;
}
