/* The same list; the sum begins at 0. */
static int numbers[4];
static int count;

void add(int number)
{
    numbers[count] = number;
    count = count + 1;
}

int average(void)
{
    int at, sum = 0;
    for (at = 0; at < count; at++)
        sum = sum + numbers[at];
    return sum / count;
}
