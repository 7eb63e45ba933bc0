int *leak(void);
void use(void);

int main(void)
{
    int *p;

    p = leak();
    use();
    return *p;
}
