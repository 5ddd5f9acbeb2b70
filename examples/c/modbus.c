/* A panel on Modbus RTU and a host on the Smith link, both to the bench record: the panel reads and writes recipe 3's
 * factor, 032, whose place by rising code is 7 and whose registers are 14 and 15; the host sees what was written. Then what
 * is refused, and what is not answered. C99 and C++. */
#include <stdio.h>
#include <string.h>

#include "../../include/khuyapesh.h"

/* Where a stored record has these; each parameter has a value of 4 bytes, high byte first, and a level of 1. */
enum { ACCESS_PLACE = 4, RECIPE_PLACE = 7, NUMBER_PLACE = 15, PARAMETERS_PLACE = 20, PARAMETER_LENGTH = 5 };
enum { PARAMETERS = KHUYAPESH_REGISTERS / 2, FACTOR_3 = 7, PULSES_PER_UNIT = 30 };

static uint8_t stored[KHUYAPESH_STORED_LENGTH], bank[KHUYAPESH_BANK_LENGTH];

/* The panel's frames as they are on the line, the CRC at their end, its low byte first. */
static const uint8_t read_factor[] = {0x01, 0x03, 0x00, 0x0E, 0x00, 0x02, 0xA5, 0xC8};
static const uint8_t write_10150[] = {0x01, 0x10, 0x00, 0x0E, 0x00, 0x02, 0x04, 0x00, 0x00, 0x27, 0xA6, 0xE9, 0xA9};
static const uint8_t write_7999[] = {0x01, 0x10, 0x00, 0x0E, 0x00, 0x02, 0x04, 0x00, 0x00, 0x1F, 0x3F, 0x3A, 0x03};
static const uint8_t write_from_15[] = {0x01, 0x10, 0x00, 0x0F, 0x00, 0x02, 0x04, 0x00, 0x00, 0x27, 0xA6, 0x28, 0x65};
static const uint8_t write_pulses[] = {0x01, 0x10, 0x00, 0x3C, 0x00, 0x02, 0x04, 0x00, 0x00, 0x00, 0x05, 0x30, 0xED};
static const uint8_t read_slave_2[] = {0x02, 0x03, 0x00, 0x0E, 0x00, 0x02, 0xA5, 0xFB};
static const uint8_t disturbed[] = {0x01, 0x03, 0x00, 0x0E, 0x00, 0x03, 0xA5, 0xC8};

/* The bench record: all at its low end but this. */
static void make_bench_record(void)
{
    size_t place;
    uint8_t *parameters = stored + PARAMETERS_PLACE;

    /* no bytes are no record: K1, and the low one is written (address 1, access 0) */
    khuyapesh_stored(bank, 0, stored, sizeof stored);
    stored[ACCESS_PLACE] = 2;
    stored[RECIPE_PLACE] = 3;
    stored[NUMBER_PLACE] = 9999 >> 8;
    stored[NUMBER_PLACE + 1] = 9999 & 0xFF;
    parameters[FACTOR_3 * PARAMETER_LENGTH + 2] = 10012 >> 8;
    parameters[FACTOR_3 * PARAMETER_LENGTH + 3] = 10012 & 0xFF;
    for (place = 0; place < PARAMETERS; place++)
        parameters[place * PARAMETER_LENGTH + 4] = place == PULSES_PER_UNIT ? 3 : 1;
}

static void print(const uint8_t *bytes, size_t length)
{
    size_t place;

    for (place = 0; place < length; place++)
        printf(" %02X", bytes[place]);
}

/* The number in the first pair of registers that a read was answered with. */
static unsigned long number_in(const uint8_t *reply)
{
    return (unsigned long)reply[3] << 24 | (unsigned long)reply[4] << 16 | (unsigned long)reply[5] << 8 | reply[6];
}

/* Shows what the panel sent and what came back: bytes, and what a panel makes of them. */
static void show(const char *what, const uint8_t *request, size_t length, const uint8_t *reply, uint32_t answer)
{
    printf("%s:", what);
    print(request, length);
    if (khuyapesh_is_modbus_refusal(answer)) {
        printf(" gets no reply: %c%u\n", khuyapesh_class(answer) == KHUYAPESH_MODBUS ? 'M' : 'K',
               (unsigned)khuyapesh_number(answer));
        return;
    }
    printf(" gets");
    print(reply, answer);
    if (reply[1] > 127)
        printf(": exception %u\n", reply[2]);
    else if (reply[1] == 16)
        printf(": written\n");
    else
        printf(": %lu\n", number_in(reply));
}

static void panel(const char *what, const uint8_t *request, size_t length)
{
    uint8_t reply[KHUYAPESH_MODBUS_ROOM];
    uint32_t answer = khuyapesh_modbus(stored, sizeof stored, request, length, reply, sizeof reply);

    show(what, request, length, reply, answer);
}

static void banked_panel(const char *what, const uint8_t *request, size_t length)
{
    uint8_t reply[KHUYAPESH_MODBUS_ROOM];
    uint32_t answer;

    answer = khuyapesh_banked_modbus(stored, sizeof stored, bank, sizeof bank, request, length, reply, sizeof reply);
    show(what, request, length, reply, answer);
}

/* Sends a text as a minicomputer's frame to the same record, and prints the text of the reply. */
static void host(const char *text)
{
    uint8_t request[KHUYAPESH_FRAME_ROOM], reply[KHUYAPESH_FRAME_ROOM], heard[KHUYAPESH_FRAME_ROOM];
    uint32_t sent, got, length;

    sent = khuyapesh_build(KHUYAPESH_MINICOMPUTER, (const uint8_t *)text, strlen(text), request, sizeof request);
    if (khuyapesh_is_refusal(sent)) {
        printf("%s is not sent: H%u\n", text, (unsigned)khuyapesh_number(sent));
        return;
    }
    got = khuyapesh_call(KHUYAPESH_MINICOMPUTER, stored, sizeof stored, request, sent, reply, sizeof reply);
    if (khuyapesh_is_refusal(got)) {
        printf("%s gets no reply: %c%u\n", text, khuyapesh_class(got) == KHUYAPESH_SILENCE ? 'S' : 'K',
               (unsigned)khuyapesh_number(got));
        return;
    }
    length = khuyapesh_read(KHUYAPESH_MINICOMPUTER, reply, got, heard, sizeof heard);
    printf("%s gets %.*s\n", text, (int)length, (const char *)heard);
}

int main(void)
{
    uint8_t before[sizeof stored];

    make_bench_record();
    panel("read 032", read_factor, sizeof read_factor);
    panel("write 10150", write_10150, sizeof write_10150);
    panel("read it back", read_factor, sizeof read_factor);
    /* the changed flag is on too, as after a PC */
    host("01PV 032");
    host("01EQ");

    memcpy(before, stored, sizeof stored);
    panel("write from register 15 on", write_from_15, sizeof write_from_15);
    panel("write 7999", write_7999, sizeof write_7999);
    panel("write 807", write_pulses, sizeof write_pulses);
    panel("read slave 2", read_slave_2, sizeof read_slave_2);
    panel("a byte disturbed", disturbed, sizeof disturbed);

    /* a bank beside the record is not read by the panel, but has to be good; no bytes are none: the empty one is written */
    khuyapesh_bank(stored, 0, bank, sizeof bank);
    banked_panel("with a bank", read_factor, sizeof read_factor);
    bank[0] = 0;
    banked_panel("with a damaged bank", read_factor, sizeof read_factor);
    /* nothing of this has changed the record */
    return memcmp(before, stored, sizeof stored) != 0;
}
