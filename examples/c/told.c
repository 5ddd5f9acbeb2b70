/* What a line tells of the record at its other end, while it talks: a new factor for recipe 3 is answered OK, and the old one
 * is still shown. Then the same from the whole recording, and why it is refuted. */
#include <stdio.h>
#include <string.h>

#include "../../include/khuyapesh.h"

enum { ADDRESS = 1, ACCESS = 2, HEADER = 5, FACTOR = KHUYAPESH_VALUE(7) /* 032 is the eighth parameter */ };

static const char *const said[][2] = {{"01PV 032", "01PV 032 00010012"},
                                      {"01NR 03", "01OK"},
                                      {"01PC 032 10150", "01OK"},
                                      {"01RC", "01RC 03 00010012"}};

static uint8_t recording[256] = {1, 0, HEADER, ADDRESS, ACCESS};
static size_t length = HEADER;

/* Puts a frame behind the recording, its length before it. */
static void record(const char *text)
{
    uint32_t frame = khuyapesh_build(KHUYAPESH_MINICOMPUTER, (const uint8_t *)text, strlen(text), recording + length + 1,
                                     sizeof recording - length - 1);

    recording[length] = (uint8_t)frame;
    length += 1 + frame;
    recording[2] = (uint8_t)length;
}

static const char *may(const uint32_t *sets, size_t field, uint32_t number)
{
    return khuyapesh_may_hold(field, sets[field], number) ? "may be" : "is not";
}

int main(void)
{
    uint32_t sets[KHUYAPESH_FIELDS], number, held, needed;
    size_t at = HEADER, index, place, request, stop, reply, end;

    /* A recording without exchanges: nothing is known but the address and the access. */
    if (khuyapesh_known(recording, length, 0, sets, KHUYAPESH_FIELDS, &place) != KHUYAPESH_DONE)
        return 1;
    for (index = 0; index < sizeof said / sizeof *said; index++) {
        record(said[index][0]);
        record(said[index][1]);
        if (khuyapesh_exchange(recording, length, at, &request, &stop, &reply, &end) != KHUYAPESH_DONE)
            return 1;
        at = end;
        printf("%s gets %s: ", said[index][0], said[index][1]);
        if (khuyapesh_learn(ADDRESS, ACCESS, recording + request, stop - request, recording + reply, end - reply, sets,
                            KHUYAPESH_FIELDS) == KHUYAPESH_REFUTED)
            printf("refuted\n");
        else
            printf("recipe %s 5, factor of recipe 3 %s 10012\n", may(sets, KHUYAPESH_RECIPE, 5), may(sets, FACTOR, 10012));
    }
    if (khuyapesh_why(recording, length, &place, &number, &held, &needed) != KHUYAPESH_FIELD)
        return 1;
    printf("exchange %lu: field %lu is %lu, and this reply needs %lu\n", (unsigned long)place, (unsigned long)number,
           (unsigned long)held, (unsigned long)needed);
    return number != FACTOR;
}
