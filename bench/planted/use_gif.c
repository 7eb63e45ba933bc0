/* Writes a picture with an extension into memory, and reads it back. */
#include <stdio.h>
#include <stdlib.h>
#include <string.h>
#include "gif_lib.h"

static unsigned char bytes[20000];
static int length, at;

static int put(GifFileType *file, const GifByteType *from, int count)
{
    (void) file;
    memcpy(bytes + length, from, count);
    length += count;
    return count;
}

static int get(GifFileType *file, GifByteType *to, int count)
{
    (void) file;
    if (count > length - at)
        count = length - at;
    memcpy(to, bytes + at, count);
    at += count;
    return count;
}

static void write_picture(void)
{
    GifColorType colors[16];
    ColorMapObject *map, *other;
    GifFileType *file;
    GifPixelType row[40];
    int i, k, fault = 0;

    for (i = 0; i < 16; i++)
        colors[i].Red = colors[i].Green = colors[i].Blue = (GifByteType) (i * 16);
    map = GifMakeMapObject(16, colors);
    other = GifMakeMapObject(16, colors);
    file = EGifOpen(NULL, put, &fault);
    EGifSetGifVersion(file, 1);
    EGifPutScreenDesc(file, 40, 30, 4, 0, map);
    EGifPutExtension(file, COMMENT_EXT_FUNC_CODE, 11, "made by us.");
    EGifPutImageDesc(file, 0, 0, 40, 30, 0, other);
    for (i = 0; i < 30; i++) {
        for (k = 0; k < 40; k++)
            row[k] = (GifPixelType) ((i * k / 7 + i) & 15);
        EGifPutLine(file, row, 40);
    }
    EGifCloseFile(file, &fault);
    GifFreeMapObject(map);
    GifFreeMapObject(other);
}

int main(void)
{
    GifFileType *file;
    SavedImage first, *again;
    ColorMapObject *both;
    GifPixelType trans[256];
    unsigned sum = 0;
    int i, fault = 0;

    write_picture();
    file = DGifOpen(NULL, get, &fault);
    if (!file || DGifSlurp(file) != GIF_OK)
        return 1;
    first = file->SavedImages[0];
    again = GifMakeSavedImage(file, &first);
    for (i = 0; i < 40 * 30; i++)
        sum = sum * 31 + again->RasterBits[i];
    both = GifUnionColorMap(file->SColorMap, again->ImageDesc.ColorMap, trans);
    for (i = 0; i < both->ColorCount; i++)
        sum = sum * 31 + both->Colors[i].Red;
    GifFreeMapObject(both);
    printf("%d bytes, %d pictures, %d blocks, %u\n", length, file->ImageCount, file->SavedImages[0].ExtensionBlockCount, sum % 100000u);
    DGifCloseFile(file, &fault);
    return 0;
}
