#include <stdio.h>

int main(void)
{
    int byte;
    int n;

    n = 0;
    byte = getchar();
    while (byte != EOF && n < 20) {
        printf("%d ", byte);
        byte = getchar();
        n = n + 1;
    }
    return 0;
}
