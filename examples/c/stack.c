/* Runs the functions on a stack that was painted before, and prints how much of it was written over: by most of them, by
 * khuyapesh_board, by those that tell what a recording does, and by those with a bank. Status 1 if it is not under
 * KHUYAPESH_STACK, KHUYAPESH_BOARD_STACK, KHUYAPESH_TELL_STACK and KHUYAPESH_BANK_STACK, or if an answer is not the expected
 * one. */
#define _XOPEN_SOURCE 700
#include <stdio.h>
#include <string.h>
#include <ucontext.h>

#include "../../include/khuyapesh.h"

enum { PAINT = 0xa5 };

static unsigned char stack[4 * KHUYAPESH_BANK_STACK];
static ucontext_t caller, callee;
static int expected = 1;

/* A drum change of this record, to its end. */
static void change_drum(uint8_t *stored)
{
    static uint8_t state[KHUYAPESH_DRUM_STATE], request[KHUYAPESH_FRAME_ROOM], reply[KHUYAPESH_FRAME_ROOM];
    uint32_t answer = khuyapesh_drum_begin(1, 3, 10150, 500, state, sizeof state, request, sizeof request);

    while (answer != KHUYAPESH_DONE && !khuyapesh_is_refusal(answer)) {
        uint32_t got = khuyapesh_call(0, stored, KHUYAPESH_STORED_LENGTH, request, answer, reply, sizeof reply);

        answer = khuyapesh_drum_take(state, sizeof state, reply, got, request, sizeof request);
    }
    expected &= answer == KHUYAPESH_DONE;
}

/* A panel's frames: 64 registers read, 032 written, a write from an odd register on, and a wrong CRC; and what each gets. */
static const struct {
    uint8_t length, bytes[13];
    uint32_t answer;
} panel_frames[] = {
    {8, {1, 3, 0, 0, 0, 64, 0x44, 0x3A}, 133},
    {13, {1, 16, 0, 14, 0, 2, 4, 0, 0, 0x27, 0xA6, 0xE9, 0xA9}, 8},
    {13, {1, 16, 0, 15, 0, 2, 4, 0, 0, 0x27, 0xA6, 0x28, 0x65}, 5},
    {8, {1, 3, 0, 0, 0, 64, 0x44, 0x3B}, KHUYAPESH_MODBUS + 4},
};
enum { PANEL_FRAMES = sizeof panel_frames / sizeof *panel_frames };

/* They are sent to this record. */
static void work_on_modbus(uint8_t *stored)
{
    static uint8_t reply[KHUYAPESH_MODBUS_ROOM];
    size_t index;

    for (index = 0; index < PANEL_FRAMES; index++)
        expected &= khuyapesh_modbus(stored, KHUYAPESH_STORED_LENGTH, panel_frames[index].bytes, panel_frames[index].length,
                                     reply, sizeof reply) == panel_frames[index].answer;
}

/* The same with this bank beside it. */
static void work_on_banked_modbus(uint8_t *stored, const uint8_t *bank)
{
    static uint8_t reply[KHUYAPESH_MODBUS_ROOM];
    size_t index;

    for (index = 0; index < PANEL_FRAMES; index++)
        expected &= khuyapesh_banked_modbus(stored, KHUYAPESH_STORED_LENGTH, bank, KHUYAPESH_BANK_LENGTH,
                                            panel_frames[index].bytes, panel_frames[index].length, reply,
                                            sizeof reply) == panel_frames[index].answer;
}

/* As many batches as are added up at once, their sum as a text, and one batch more than that. */
static void add_up(void)
{
    enum { MOST = KHUYAPESH_TOTALS_BATCHES };
    static uint32_t raws[MOST + 1], factors[MOST + 1], recipes[MOST + 1], counts[KHUYAPESH_RECIPES];
    static uint64_t sums[KHUYAPESH_RECIPES];
    static uint8_t text[KHUYAPESH_FRAME_ROOM];
    size_t index;

    for (index = 0; index <= MOST; index++) {
        raws[index] = 99999999;
        factors[index] = 12000;
        recipes[index] = KHUYAPESH_RECIPES;
    }
    expected &= khuyapesh_totals(raws, MOST, factors, MOST, recipes, MOST, sums, KHUYAPESH_RECIPES, counts,
                                 KHUYAPESH_RECIPES) == KHUYAPESH_DONE;
    expected &= counts[KHUYAPESH_RECIPES - 1] == MOST;
    expected &= khuyapesh_units(sums[KHUYAPESH_RECIPES - 1], text, sizeof text) == 17;
    expected &= memcmp(text, "119999998800.0000", 17) == 0;
    expected &= khuyapesh_totals(raws, MOST + 1, factors, MOST + 1, recipes, MOST + 1, sums, KHUYAPESH_RECIPES, counts,
                                 KHUYAPESH_RECIPES) == KHUYAPESH_TOTALS + 2;
}

/* A panel on Modbus; a drum change; batches added up; requests that are read, written and refused, their replies recorded
 * and judged; then the same requests end to end. The recording stays, for what follows. */
static uint8_t recording[2048];
static size_t recorded;

static void set_length(size_t length)
{
    recording[1] = (uint8_t)(length >> 8);
    recording[2] = (uint8_t)length;
}

/* One exchange more, at which the recording is not judged, whatever came back. The length with it. */
static size_t ask_for_batch(void)
{
    uint32_t sent = khuyapesh_build(0, (const uint8_t *)"01RT R 001", 10, recording + recorded + 1, KHUYAPESH_FRAME_ROOM);
    size_t length = recorded + 1 + sent + 1;

    recording[recorded] = (uint8_t)sent;
    recording[length - 1] = 0;
    set_length(length);
    return length;
}

static void work(void)
{
    static const char *const texts[] = {"01EQ", "01RS", "01RC", "01PC 032 10150", "01XC 011 0", "01SB 500", "01SA", "01QQ",
                                        "01EA", "01AR"};
    static uint8_t stored[KHUYAPESH_STORED_LENGTH], copy[KHUYAPESH_STORED_LENGTH];
    static uint8_t request[KHUYAPESH_FRAME_ROOM], reply[KHUYAPESH_FRAME_ROOM], text[KHUYAPESH_FRAME_ROOM];
    static uint8_t stream[1024], replies[1024];
    size_t streamed = 0, place, count, index, taken, answered, written;

    recorded = 5;
    khuyapesh_stored(stored, 0, copy, sizeof copy);
    work_on_modbus(copy);
    change_drum(copy);
    add_up();
    khuyapesh_stored(copy, 0, stored, sizeof stored);
    for (index = 0; index < sizeof texts / sizeof *texts; index++) {
        uint32_t sent = khuyapesh_build(0, (const uint8_t *)texts[index], strlen(texts[index]), request, sizeof request);
        uint32_t got = khuyapesh_call(0, stored, sizeof stored, request, sent, reply, sizeof reply);

        expected &= !khuyapesh_is_refusal(got) && !khuyapesh_is_refusal(khuyapesh_read(0, reply, got, text, sizeof text));
        recording[recorded] = (uint8_t)sent;
        memcpy(recording + recorded + 1, request, sent);
        recorded += 1 + sent;
        recording[recorded] = (uint8_t)got;
        memcpy(recording + recorded + 1, reply, got);
        recorded += 1 + got;
        memcpy(stream + streamed, request, sent);
        streamed += sent;
    }
    recording[0] = 1;
    recording[3] = 1;
    expected &= khuyapesh_judge(recording, ask_for_batch(), &place, &count) == KHUYAPESH_NOT_JUDGED;
    expected &= place == index + 1 && count == place;
    set_length(recorded);
    expected &= khuyapesh_judge(recording, recorded, &place, &count) == KHUYAPESH_FITS;
    expected &= khuyapesh_several(stored, sizeof stored, stream, streamed, replies, sizeof replies, &taken, &answered,
                                  &written) == KHUYAPESH_DONE;
    expected &= taken == streamed && answered == index;
    expected &= khuyapesh_panel(KHUYAPESH_PULSES, 500, stored, sizeof stored) == KHUYAPESH_DONE;
    expected &= khuyapesh_panel(KHUYAPESH_ALARM_ON, 19, stored, sizeof stored) == KHUYAPESH_DONE;
    expected &= khuyapesh_stored(stored, sizeof stored, copy, sizeof copy) == KHUYAPESH_DONE;
}

/* What a recording that fits tells, exchange by exchange and at once; that it is not judged to its end with a request for a
 * kept batch there; then why it is refuted with its first exchange once more at its end, where the phase is another. */
static void tell(void)
{
    static uint32_t sets[KHUYAPESH_FIELDS], learnt[KHUYAPESH_FIELDS];
    size_t length, at = 5, count = 0, first = 0, place, request, stop, reply, end;
    uint32_t number, held, needed;

    expected &= khuyapesh_known(recording, recorded, 0, learnt, KHUYAPESH_FIELDS, &place) == KHUYAPESH_DONE;
    while (khuyapesh_exchange(recording, recorded, at, &request, &stop, &reply, &end) == KHUYAPESH_DONE) {
        expected &= khuyapesh_learn(recording[3], recording[4], recording + request, stop - request, recording + reply,
                                    end - reply, learnt, KHUYAPESH_FIELDS) == KHUYAPESH_FITS;
        if (count++ == 0)
            first = end - at;
        at = end;
    }
    expected &= khuyapesh_known(recording, recorded, count, sets, KHUYAPESH_FIELDS, &place) == KHUYAPESH_DONE;
    expected &= memcmp(sets, learnt, sizeof sets) == 0;
    expected &= khuyapesh_may_hold(KHUYAPESH_PHASE, sets[KHUYAPESH_PHASE], 2) == 1;

    length = ask_for_batch();
    expected &= khuyapesh_known(recording, length, count + 1, sets, KHUYAPESH_FIELDS, &place) == KHUYAPESH_NOT_JUDGED;
    expected &= khuyapesh_why(recording, length, &place, &number, &held, &needed) == KHUYAPESH_KEPT_BATCH;
    expected &= place == count + 1;
    expected &= khuyapesh_learn(recording[3], recording[4], recording + recorded + 1, recording[recorded], recording, 0, learnt,
                                KHUYAPESH_FIELDS) == KHUYAPESH_NOT_JUDGED;
    expected &= memcmp(sets, learnt, sizeof sets) == 0;

    length = recorded + first;
    memcpy(recording + recorded, recording + 5, first);
    set_length(length);
    expected &= khuyapesh_why(recording, length, &place, &number, &held, &needed) == KHUYAPESH_FIELD;
    expected &= place == count + 1 && number == KHUYAPESH_PHASE && held == sets[KHUYAPESH_PHASE] && needed == 1;
    set_length(recorded);
}

/* A full board, with requests to its last record that are read, written and refused. */
static void work_on_board(void)
{
    static const char *const texts[] = {"16EQ", "16RC", "16PC 032 10150", "16SB 500", "16QQ"};
    static uint8_t board[KHUYAPESH_BOARD_RECORDS * KHUYAPESH_STORED_LENGTH];
    static uint8_t request[KHUYAPESH_FRAME_ROOM], reply[KHUYAPESH_FRAME_ROOM];
    size_t place, index;

    for (place = 0; place < KHUYAPESH_BOARD_RECORDS; place++) {
        khuyapesh_stored(reply, 0, board + place * KHUYAPESH_STORED_LENGTH, KHUYAPESH_STORED_LENGTH);
        board[place * KHUYAPESH_STORED_LENGTH + 3] = (uint8_t)(place + 1);
    }
    for (index = 0; index < sizeof texts / sizeof *texts; index++) {
        uint32_t sent = khuyapesh_build(0, (const uint8_t *)texts[index], strlen(texts[index]), request, sizeof request);

        expected &= !khuyapesh_is_refusal(khuyapesh_board(0, board, sizeof board, request, sent, reply, sizeof reply));
    }
}

/* A full bank, with a panel on Modbus; then its oldest batch gives its room to one more; its batches asked for, the first,
 * the last and one more than there are; the same requests end to end, and the bank read, written and added up. */
static void work_with_bank(void)
{
    static const char *const texts[] = {"01SB 500", "01SA", "01SP", "01ET", "01RT R 001", "01RT R 100", "01RT R 101"};
    static const uint8_t batch[] = {0, 1, 1, 0x1F, 0x40, 0, 0, 0, 0, 0, 0, 0};
    static uint8_t stored[KHUYAPESH_STORED_LENGTH], bank[KHUYAPESH_BANK_LENGTH], copy[KHUYAPESH_BANK_LENGTH];
    static uint8_t request[KHUYAPESH_FRAME_ROOM], reply[KHUYAPESH_FRAME_ROOM], stream[1024], replies[1024];
    static uint8_t text[KHUYAPESH_TOTALS_ROOM];
    static uint64_t sums[KHUYAPESH_RECIPES];
    static uint32_t counts[KHUYAPESH_RECIPES];
    size_t streamed = 0, index, taken, answered, written;

    khuyapesh_stored(request, 0, stored, sizeof stored);
    expected &= khuyapesh_bank(request, 0, bank, sizeof bank) == KHUYAPESH_STORED + 7;
    bank[1] = KHUYAPESH_BANK_LENGTH >> 8;
    bank[2] = KHUYAPESH_BANK_LENGTH & 0xff;
    for (index = 0; index < KHUYAPESH_BANK_BATCHES; index++)
        memcpy(bank + 3 + index * sizeof batch, batch, sizeof batch);
    work_on_banked_modbus(stored, bank);
    for (index = 0; index < sizeof texts / sizeof *texts; index++) {
        uint32_t sent = khuyapesh_build(0, (const uint8_t *)texts[index], strlen(texts[index]), request, sizeof request);

        expected &= !khuyapesh_is_refusal(khuyapesh_banked_call(0, stored, sizeof stored, bank, sizeof bank, request, sent,
                                                                reply, sizeof reply));
        memcpy(stream + streamed, request, sent);
        streamed += sent;
    }
    expected &= khuyapesh_banked_several(stored, sizeof stored, bank, sizeof bank, stream, streamed, replies, sizeof replies,
                                         &taken, &answered, &written) == KHUYAPESH_DONE;
    expected &= taken == streamed && answered == index;
    /* the two that were ended, numbers 2 and 3, are the newest */
    expected &= bank[sizeof bank - 24 + 1] == 2 && bank[sizeof bank - 12 + 1] == 3;
    expected &= khuyapesh_bank(bank, sizeof bank, copy, sizeof copy) == KHUYAPESH_DONE;
    expected &= memcmp(bank, copy, sizeof bank) == 0;
    /* all of recipe 1, and nothing flowed */
    expected &= khuyapesh_bank_totals(bank, sizeof bank, sums, KHUYAPESH_RECIPES, counts, KHUYAPESH_RECIPES) == KHUYAPESH_DONE;
    expected &= sums[0] == 0 && counts[0] == KHUYAPESH_BANK_BATCHES;
    expected &= khuyapesh_totals_text(bank, sizeof bank, text, sizeof text, &written) == KHUYAPESH_DONE;
    expected &= written == 14 && memcmp(text, "01 100 0.0000\n", 14) == 0;
}

static void run(void (*task)(void))
{
    getcontext(&callee);
    callee.uc_stack.ss_sp = stack;
    callee.uc_stack.ss_size = sizeof stack;
    callee.uc_link = &caller;
    makecontext(&callee, task, 0);
    swapcontext(&caller, &callee);
}

/* How much of the stack a task takes. It is run once before, so that the linker has looked up by then what it looks up at a
 * first call. */
static size_t taken_by(void (*task)(void))
{
    size_t left = 0;

    run(task);
    memset(stack, PAINT, sizeof stack);
    run(task);
    while (left < sizeof stack && stack[left] == PAINT)
        left++;
    return sizeof stack - left;
}

int main(void)
{
    size_t used = taken_by(work), used_to_tell = taken_by(tell), used_on_board = taken_by(work_on_board);
    size_t used_with_bank = taken_by(work_with_bank);

    printf("stack: %lu of %d bytes, to tell %lu of %d, with a board %lu of %d, with a bank %lu of %d\n", (unsigned long)used,
           KHUYAPESH_STACK, (unsigned long)used_to_tell, KHUYAPESH_TELL_STACK, (unsigned long)used_on_board,
           KHUYAPESH_BOARD_STACK, (unsigned long)used_with_bank, KHUYAPESH_BANK_STACK);
    return !expected || used >= KHUYAPESH_STACK || used_to_tell >= KHUYAPESH_TELL_STACK ||
           used_on_board >= KHUYAPESH_BOARD_STACK || used_with_bank >= KHUYAPESH_BANK_STACK;
}
