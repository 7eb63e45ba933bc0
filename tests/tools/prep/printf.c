/* a source that declares printf by itself, without the dots */
extern int printf();
int printf(const char *format);
typedef int number; typedef int number;
int main(void)
{
    number n = 3;
    printf("%d %s\n", n, "x");
    return 0;
}
