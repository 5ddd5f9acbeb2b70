/* Answers what a serial card hands over, one call a tick. Frames come in pieces: what a tick leaves untaken is lent again
 * before what the next one brings. The replies are those of one call over everything. C99 and C++. */
#include <stdio.h>
#include <string.h>

#include "../../include/khuyapesh.h"

/* The most that a tick brings, that is lent, and that is replied: no frame has under 8 bytes. */
#define TICK 24
#define LENT (TICK + KHUYAPESH_FRAME_ROOM - 1)
#define REPLIES (KHUYAPESH_FRAME_ROOM * (LENT / 8 + 1))

/* All that comes over the line, and how much of it the card has handed over. */
static uint8_t line[1024];
static size_t line_length, handed_over;

/* Puts the frame of a text on the line. */
static void transmit(const char *text)
{
    line_length += khuyapesh_build(KHUYAPESH_MINICOMPUTER, (const uint8_t *)text, strlen(text), line + line_length,
                                   sizeof line - line_length);
}

/* The card: lays what came in during a tick, now more and now less, and answers its length. */
static size_t receive(unsigned tick, uint8_t *bytes)
{
    static const size_t lengths[] = {5, TICK, 0, 1, 13};
    size_t length = lengths[tick % 5];

    if (length > line_length - handed_over)
        length = line_length - handed_over;
    memcpy(bytes, line + handed_over, length);
    handed_over += length;
    return length;
}

static void print(const uint8_t *bytes, size_t length)
{
    size_t place;

    for (place = 0; place < length; place++)
        printf(" %02X", bytes[place]);
    printf("\n");
}

int main(void)
{
    static uint8_t stored[KHUYAPESH_STORED_LENGTH], stored_at_once[KHUYAPESH_STORED_LENGTH];
    static uint8_t lent[LENT], reply[REPLIES], replies[4096], replies_at_once[4096];
    size_t held = 0, replied = 0, taken, answered, written;
    unsigned tick;

    /* no bytes are no record: K1, and the low one is written (address 1, access 0) */
    if (khuyapesh_stored(lent, 0, stored, sizeof stored) != KHUYAPESH_STORED + 1)
        return 1;
    memcpy(stored_at_once, stored, sizeof stored);
    transmit("01NR 03");
    transmit("01RR");
    transmit("02RR");
    line[line_length++] = 0xFF; /* noise */
    transmit("01SB 500");
    transmit("01SA");
    transmit("01EQ");

    for (tick = 0; handed_over < line_length; tick++) {
        held += receive(tick, lent + held);
        if (khuyapesh_several(stored, sizeof stored, lent, held, reply, sizeof reply, &taken, &answered, &written) !=
            KHUYAPESH_DONE)
            return 1;
        printf("tick %u: lent %lu, taken %lu, answered %lu:", tick, (unsigned long)held, (unsigned long)taken,
               (unsigned long)answered);
        print(reply, written);
        memcpy(replies + replied, reply, written);
        replied += written;
        /* the start of a frame, perhaps: it stays for the next tick */
        held -= taken;
        memmove(lent, lent + taken, held);
    }

    if (khuyapesh_several(stored_at_once, sizeof stored_at_once, line, line_length, replies_at_once, sizeof replies_at_once,
                          &taken, &answered, &written) != KHUYAPESH_DONE)
        return 1;
    if (written != replied || memcmp(replies, replies_at_once, replied) != 0 ||
        memcmp(stored, stored_at_once, sizeof stored) != 0)
        return 1;
    printf("at once: lent %lu, taken %lu, answered %lu: the same replies, the same record\n", (unsigned long)line_length,
           (unsigned long)taken, (unsigned long)answered);
    return 0;
}
