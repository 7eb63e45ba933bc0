#include <stdlib.h>
int main(void)
{
    return atoi("999999999999999");
}
