/* A firmware's week with a bank of finished batches: they are set, run and ended on three days, and each night the bank is put
 * away. On Thursday the host asks what came of them. C99 and C++. */
#include <stdio.h>
#include <string.h>

#include "../../include/khuyapesh.h"

/* The bank has room for all that can be kept; so many of its bytes are in use as its own length field says. */
static uint8_t stored[KHUYAPESH_STORED_LENGTH], bank[KHUYAPESH_BANK_LENGTH];
static size_t in_use(void) { return (size_t)bank[1] << 8 | bank[2]; }

/* Whether all went as it should so far. */
static int good = 1;

/* Sends a text as a minicomputer's frame to the unit; the text of the reply, or an empty one. */
static const char *ask(const char *text)
{
    static uint8_t heard[KHUYAPESH_FRAME_ROOM + 1];
    uint8_t request[KHUYAPESH_FRAME_ROOM], reply[KHUYAPESH_FRAME_ROOM];
    uint32_t sent, got, length;

    sent = khuyapesh_build(KHUYAPESH_MINICOMPUTER, (const uint8_t *)text, strlen(text), request, sizeof request);
    if (khuyapesh_is_refusal(sent))
        return "";
    got = khuyapesh_banked_call(KHUYAPESH_MINICOMPUTER, stored, sizeof stored, bank, sizeof bank, request, sent, reply,
                                sizeof reply);
    if (khuyapesh_is_refusal(got))
        return "";
    length = khuyapesh_read(KHUYAPESH_MINICOMPUTER, reply, got, heard, sizeof heard);
    heard[length] = 0;
    return (const char *)heard;
}

/* What has to be answered OK, what is shown, and what the meter counts. */
static void tell(const char *text) { good &= strcmp(ask(text), "01OK") == 0; }
static void show(const char *text) { printf("%s gets %s\n", text, ask(text)); }
static void count(uint16_t pulses)
{
    good &= khuyapesh_panel(KHUYAPESH_PULSES, pulses, stored, sizeof stored) == KHUYAPESH_DONE;
}

/* At night only the bytes in use are put away, and the memory is lost. In the morning they are read into the buffer that can
 * hold more. */
static void night(const char *day)
{
    static uint8_t flash[KHUYAPESH_BANK_LENGTH];
    size_t length = in_use();

    memcpy(flash, bank, length);
    memset(bank, 0xFF, sizeof bank);
    good &= khuyapesh_bank(flash, length, bank, sizeof bank) == KHUYAPESH_DONE;
    printf("%s: %lu bytes are put away\n", day, (unsigned long)length);
}

int main(void)
{
    size_t place;

    /* no bytes are no record, K1, and no bank, K7: the low record (address 1, access 0) and the empty bank are written */
    good &= khuyapesh_stored(bank, 0, stored, sizeof stored) == KHUYAPESH_STORED + 1;
    good &= khuyapesh_bank(stored, 0, bank, sizeof bank) == KHUYAPESH_STORED + 7;
    tell("01NR 03");
    tell("01PC 032 10150");

    /* the preset is reached: Done */
    tell("01SB 500");
    tell("01SA");
    count(500);
    tell("01ET");
    night("Monday");

    /* Stopped before that */
    tell("01SB 400");
    tell("01SA");
    count(150);
    tell("01SP");
    tell("01ET");
    night("Tuesday");

    /* nothing ran of the first, so it is not kept; the second runs over its preset */
    tell("01SB 900");
    tell("01ET");
    tell("01NR 04");
    tell("01SB 300");
    tell("01SA");
    count(312);
    tell("01ET");
    night("Wednesday");

    /* 001 is the newest; a bank has no more than 100 */
    show("01RT R 001");
    show("01RT R 002");
    show("01RT R 003");
    show("01RT R 101");
    /* version, length; then each batch, oldest first: number, recipe, factor, raw, preset */
    printf("the bank's %lu bytes:", (unsigned long)in_use());
    for (place = 0; place < in_use(); place++)
        printf("%s%02X", place % 12 == 3 ? "\n    " : " ", bank[place]);
    printf("\n");
    return !good;
}
