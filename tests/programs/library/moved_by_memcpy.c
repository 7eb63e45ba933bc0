#include <string.h>
int main(void)
{
    char text[16] = "abb";
    memcpy(text, text + 1, 2);
    return 0;
}
