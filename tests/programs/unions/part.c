union mixed {
    char first[2];
    int number;
};

int main(void)
{
    union mixed u = {{1}};

    return u.number;
}
