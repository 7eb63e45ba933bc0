#include <stdio.h>
int main(void)
{
    printf("%s", 1);
    return 0;
}
