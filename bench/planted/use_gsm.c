/* Encodes and decodes a few frames of made speech. */
#include <stdio.h>
#include "gsm.h"

static short sample(int at)
{
    int saw = at * 37 % 4000 - 2000, slow = (at / 3) * 11 % 1000 - 500;
    return (short) (saw * 3 + slow * 5);
}

int main(void)
{
    gsm encoder = gsm_create(), decoder = gsm_create();
    gsm_frame frame;
    gsm_signal in[160], out[160];
    unsigned sum = 0;
    int f, i;

    for (f = 0; f < 5; f++) {
        for (i = 0; i < 160; i++)
            in[i] = sample(f * 160 + i);
        gsm_encode(encoder, in, frame);
        for (i = 0; i < 33; i++)
            sum = sum * 31 + frame[i];
        if (gsm_decode(decoder, frame, out))
            return 1;
        for (i = 0; i < 160; i++)
            sum = sum * 31 + (unsigned short) out[i];
    }
    gsm_destroy(encoder);
    gsm_destroy(decoder);
    printf("%u\n", sum % 100000u);
    return 0;
}
