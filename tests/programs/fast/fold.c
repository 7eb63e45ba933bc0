int zero;

int main(void)
{
    int right;
    right = 0;
    if (0 && 1 / zero)
        right = 1;
    right += (char)300 == 44;
    right += (signed char)200 == -56;
    right += -1 >> 1 == -1;
    right += (unsigned int)-1 / 2u == 2147483647u;
    right += 3 - 5 < 0u;
    right += ~0 == -1;
    right += !5 + !0;
    right += 1 << 31 < 0;
    right += -7 / 2 == -3;
    right += -7 % 2 == -1;
    right += (short)70000 == 4464;
    right += sizeof(int) * 2 + 3 * 4;
    return right;
}
