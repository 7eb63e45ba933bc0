/* Packs numbers into packets, packets into pages, and takes all of it apart again. */
#include <stdio.h>
#include <string.h>
#include <ogg/ogg.h>

static unsigned char stream[40000];
static long length;

static void put(ogg_page *page)
{
    memcpy(stream + length, page->header, page->header_len);
    length += page->header_len;
    memcpy(stream + length, page->body, page->body_len);
    length += page->body_len;
}

static void write_all(void)
{
    ogg_stream_state state;
    oggpack_buffer pack;
    ogg_packet packet;
    ogg_page page;
    int i, k;

    ogg_stream_init(&state, 77);
    for (i = 0; i < 40; i++) {
        oggpack_writeinit(&pack);
        oggpack_write(&pack, i, 16);
        for (k = 0; k < i * 40; k++)
            oggpack_write(&pack, k & 31, 5 + k % 3);
        memset(&packet, 0, sizeof(packet));
        packet.packet = oggpack_get_buffer(&pack);
        packet.bytes = oggpack_bytes(&pack);
        packet.b_o_s = i == 0;
        packet.e_o_s = i == 39;
        packet.granulepos = i;
        packet.packetno = i;
        ogg_stream_packetin(&state, &packet);
        oggpack_writeclear(&pack);
        while (ogg_stream_pageout(&state, &page))
            put(&page);
    }
    while (ogg_stream_flush(&state, &page))
        put(&page);
    ogg_stream_clear(&state);
}

static int read_packet(ogg_packet *packet)
{
    oggpack_buffer pack;
    int sum = 0, number;

    oggpack_readinit(&pack, packet->packet, packet->bytes);
    number = oggpack_read(&pack, 16);
    while (oggpack_bytes(&pack) < packet->bytes)
        sum += oggpack_read(&pack, 5);
    return sum + number;
}

int main(void)
{
    ogg_sync_state sync;
    ogg_stream_state state;
    ogg_page page;
    ogg_packet packet;
    long at = 0, some;
    int pages = 0, packets = 0, sum = 0;

    write_all();
    ogg_sync_init(&sync);
    ogg_stream_init(&state, 77);
    while (at < length) {
        some = length - at < 700 ? length - at : 700;
        memcpy(ogg_sync_buffer(&sync, some), stream + at, some);
        ogg_sync_wrote(&sync, some);
        at += some;
        while (ogg_sync_pageout(&sync, &page) > 0) {
            pages++;
            ogg_stream_pagein(&state, &page);
            while (ogg_stream_packetout(&state, &packet) > 0) {
                packets++;
                sum += read_packet(&packet);
            }
        }
    }
    ogg_stream_clear(&state);
    ogg_sync_clear(&sync);
    printf("%ld bytes, %d pages, %d packets, sum %d\n", length, pages, packets, sum);
    return 0;
}
