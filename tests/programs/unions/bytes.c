union word {
    unsigned number;
    unsigned char bytes[4];
};

int main(void)
{
    union word w;

    w.number = 258;
    w.bytes[1] = 3;
    return w.number == 770 && w.bytes[0] == 2;
}
