union both {
    int *place;
    int number;
};

int main(void)
{
    int a;
    union both x;

    x.place = &a;
    return x.number;
}
