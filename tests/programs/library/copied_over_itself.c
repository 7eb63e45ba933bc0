#include <string.h>
int main(void)
{
    char text[16] = "abb";
    strcpy(text + 1, text);
    return 0;
}
