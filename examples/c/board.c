/* A skid with three meters on one board, each with a host of its own on the line. A host reaches its own meter and no other;
 * a list that is not right is refused as a whole, and nothing is changed. C99 and C++. */
#include <stdio.h>
#include <string.h>

#include "../../include/khuyapesh.h"

#define METERS 3

/* The records end to end, and as they were before a request. */
static uint8_t board[METERS * KHUYAPESH_STORED_LENGTH], before[sizeof board];

/* The place of a meter's record, and in it that of its address. */
static uint8_t *meter(size_t place) { return board + place * KHUYAPESH_STORED_LENGTH; }
static void set_address(size_t place, uint8_t address) { meter(place)[3] = address; }

/* Sends a request to the board and prints what comes back, and which meters' bytes are then others than before. */
static void send(const char *text)
{
    uint8_t request[KHUYAPESH_FRAME_ROOM], reply[KHUYAPESH_FRAME_ROOM], got[KHUYAPESH_FRAME_ROOM];
    uint32_t sent = khuyapesh_build(KHUYAPESH_TERMINAL, (const uint8_t *)text, strlen(text), request, sizeof request);
    uint32_t answer;
    size_t place;
    int none = 1;

    memcpy(before, board, sizeof board);
    answer = khuyapesh_board(KHUYAPESH_TERMINAL, board, sizeof board, request, sent, reply, sizeof reply);
    if (khuyapesh_is_refusal(answer))
        printf("%s gets no reply: %c%lu", text, khuyapesh_class(answer) == KHUYAPESH_STORED ? 'K' : 'S',
               (unsigned long)khuyapesh_number(answer));
    else
        printf("%s gets %.*s", text, (int)khuyapesh_read(KHUYAPESH_TERMINAL, reply, answer, got, sizeof got), (char *)got);
    printf("; changed:");
    for (place = 0; place < METERS; place++)
        if (memcmp(meter(place), before + place * KHUYAPESH_STORED_LENGTH, KHUYAPESH_STORED_LENGTH) != 0) {
            printf(" meter %lu", (unsigned long)place + 1);
            none = 0;
        }
    printf(none ? " none\n" : "\n");
}

int main(void)
{
    size_t place;

    /* no bytes are no record: K1, and the low one is written (address 1, access 0) */
    for (place = 0; place < METERS; place++) {
        if (khuyapesh_stored(before, 0, meter(place), KHUYAPESH_STORED_LENGTH) != KHUYAPESH_STORED + 1)
            return 1;
        set_address(place, (uint8_t)(11 * (place + 1)));
    }
    send("22PC 032 10150");
    send("22PV 032");
    send("11PV 032");
    send("33NR 03");
    send("44EQ");
    /* meter 3 is given the address of meter 1: not even meter 2 is answered */
    set_address(2, 11);
    send("22EQ");
    /* and with an address that there is not its record is no good */
    set_address(2, 0);
    send("22EQ");
    set_address(2, 33);
    send("33RR");
    return 0;
}
