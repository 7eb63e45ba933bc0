extern int some[];
int main(void)
{
    return sizeof(some);
}
