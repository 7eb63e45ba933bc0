int main(void)
{
    int n, total;

    total = 0;
    for (n = 0; n < 5; n++)
        switch (n) {
        case 0:
        odd:
            total = total + 1;
            break;
        case 2:
            goto even;
        case 1:
        case 3:
            goto odd;
        default:
        even:
            total = total + 10;
        }
    return total;
}
