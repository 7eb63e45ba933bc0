/* Numbers in the order in which they came, and their average. */
static int numbers[4];
static int count;

void add(int number)
{
    numbers[count] = number;
    count = count + 1;
}

int average(void)
{
    int at, sum;
    for (at = 0; at < count; at++)
        sum = sum + numbers[at];
    return sum / count;
}
