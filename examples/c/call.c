/* Raises an alarm in a record that is stored in bytes, calls the controller for it, prints each reply's text, and judges what
 * was said. C99 and C++. */
#include <stdio.h>
#include <string.h>

#include "../../include/khuyapesh.h"

static uint8_t stored[KHUYAPESH_STORED_LENGTH];

/* What was said so far, as a recording of address 1 and access 0. */
static uint8_t recording[1024] = {1, 0, 5, 1, 0};
static size_t recorded = 5;

/* Lays a frame, or nothing for a silence, behind what was recorded. */
static void record(const uint8_t *frame, size_t length)
{
    recording[recorded] = (uint8_t)length;
    memcpy(recording + recorded + 1, frame, length);
    recorded += 1 + length;
    recording[1] = (uint8_t)(recorded >> 8);
    recording[2] = (uint8_t)recorded;
}

/* Sends a text as a minicomputer's frame to the stored record, and prints the text of the reply. */
static void ask(const char *text)
{
    uint8_t request[KHUYAPESH_FRAME_ROOM], reply[KHUYAPESH_FRAME_ROOM], heard[KHUYAPESH_FRAME_ROOM];
    uint32_t sent, got, length;

    sent = khuyapesh_build(KHUYAPESH_MINICOMPUTER, (const uint8_t *)text, strlen(text), request, sizeof request);
    if (khuyapesh_is_refusal(sent)) {
        printf("%s is not sent: H%u\n", text, (unsigned)khuyapesh_number(sent));
        return;
    }
    got = khuyapesh_call(KHUYAPESH_MINICOMPUTER, stored, sizeof stored, request, sent, reply, sizeof reply);
    record(request, sent);
    record(reply, khuyapesh_is_refusal(got) ? 0 : got);
    if (khuyapesh_is_refusal(got)) {
        printf("%s gets no reply: %c%u\n", text, khuyapesh_class(got) == KHUYAPESH_SILENCE ? 'S' : 'K',
               (unsigned)khuyapesh_number(got));
        return;
    }
    length = khuyapesh_read(KHUYAPESH_MINICOMPUTER, reply, got, heard, sizeof heard);
    printf("%s gets %.*s\n", text, (int)length, (const char *)heard);
}

int main(void)
{
    uint8_t none = 0;
    size_t place, count;

    /* no bytes are no record: K1, and the low one is written (address 1, access 0) */
    if (khuyapesh_stored(&none, 0, stored, sizeof stored) != KHUYAPESH_STORED + 1)
        return 1;
    /* the power-fail alarm */
    if (khuyapesh_panel(KHUYAPESH_ALARM_ON, 12, stored, sizeof stored) != KHUYAPESH_DONE)
        return 1;
    ask("01EA");
    ask("01AR");
    ask("01EQ");
    ask("01NR 03");
    ask("01RR");
    ask("02EQ");
    ask("EQ");
    if (khuyapesh_judge(recording, recorded, &place, &count) != KHUYAPESH_FITS)
        return 1;
    printf("fits %lu\n", (unsigned long)count);
    return 0;
}
