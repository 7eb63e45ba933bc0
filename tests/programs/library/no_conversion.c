#include <stdio.h>
int main(void)
{
    printf("ab%y", 1);
    return 0;
}
