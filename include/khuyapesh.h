/* The proved blending controller, with or without a bank of finished batches, on its own link or on Modbus RTU; panel,
 * stored forms, week totals, host side, drum change, judge, and what a recording tells of the record, over bytes and
 * numbers. For C99 and C++.
 *
 * Every function takes any bytes, lengths and numbers. What no proof can give is asked of the pointers:
 *     none is null, also where the length beside it is 0;
 *     as many bytes (of sets, and of the lists, sums and counts of totals: numbers) as that length says are there to be
 *     read, and to be written where the pointer is not const;
 *     what is written overlaps nothing else of the same call, and no other thread touches it meanwhile;
 *     what is only read, no other thread writes meanwhile;
 *     what points to a size_t, a uint32_t or a uint64_t is aligned as that is.
 *
 * A call takes under KHUYAPESH_STACK bytes of stack (khuyapesh_board, which holds all records while it works, under
 * KHUYAPESH_BOARD_STACK; khuyapesh_known, khuyapesh_learn and khuyapesh_why, which hold several records' sets, under
 * KHUYAPESH_TELL_STACK; khuyapesh_banked_call, khuyapesh_banked_several, khuyapesh_banked_modbus, khuyapesh_bank,
 * khuyapesh_bank_totals and khuyapesh_totals_text, which hold a bank, under KHUYAPESH_BANK_STACK) and no heap, writes no
 * data but what is lent, and needs nothing outside of the library but memcpy, memmove, memset or memcmp. So every function
 * is re-entrant, and threads may call at the same time, each over buffers of its own. (A dynamic linker that looks up memcpy
 * when it is first called takes stack of its own then; linking with -z now, or statically, avoids that.)
 *
 * A record is lent in its stored form. A silence or refusal leaves every lent byte as it was, unless said otherwise. */
#ifndef KHUYAPESH_H
#define KHUYAPESH_H

#include <stddef.h>
#include <stdint.h>

#define KHUYAPESH_STACK 4096
#define KHUYAPESH_BOARD_STACK 12288
#define KHUYAPESH_TELL_STACK 8192
#define KHUYAPESH_BANK_STACK 24576

/* Bytes of a stored record as it is written, which is version 2; of the longest frame, and the least room for a reply, a
 * built frame, a text that is read or a sum in units; of the longest recording. Stored bytes of version 1 have 177 and are
 * only read: they hold no alarms, and the record that is read from them has none on. */
#define KHUYAPESH_STORED_LENGTH 180
#define KHUYAPESH_FRAME_ROOM 64
#define KHUYAPESH_RECORDING_LENGTH 65535

/* The finished batches that are kept, and the bytes of a stored bank with so many: version 1; its total length in 2
 * bytes, high byte first; then 12 bytes for each batch, oldest first: batch number 2, recipe 1, factor 2, raw volume 4,
 * preset 3. An empty bank is 01 00 03. */
#define KHUYAPESH_BANK_BATCHES 100
#define KHUYAPESH_BANK_LENGTH 1203

/* The recipes that totals are given for, recipe r at place r - 1; the most batches that are added up at once; and the least
 * room for the text of totals. */
#define KHUYAPESH_RECIPES 8
#define KHUYAPESH_TOTALS_BATCHES 1000
#define KHUYAPESH_TOTALS_ROOM 512

/* On Modbus RTU: the bytes of the longest frame, and the least room for a reply; the registers, two for each parameter. */
#define KHUYAPESH_MODBUS_ROOM 256
#define KHUYAPESH_REGISTERS 64

/* The most records on one board. */
#define KHUYAPESH_BOARD_RECORDS 16

/* Bytes of the state of a drum change. */
#define KHUYAPESH_DRUM_STATE 8

/* The fields of a record, each with its number: */
#define KHUYAPESH_ADDRESS 0
#define KHUYAPESH_ACCESS 1
#define KHUYAPESH_PHASE 2 /* 0 Idle, 1 Set, 2 Running, 3 Stopped, 4 Done */
#define KHUYAPESH_KEYPAD 3 /* this and the flags that follow: 0 off, 1 on */
#define KHUYAPESH_FLOW 4
#define KHUYAPESH_CHANGED 5
#define KHUYAPESH_BATCH_RESET 6
#define KHUYAPESH_POWER_FAIL 7
#define KHUYAPESH_RECIPE 8
#define KHUYAPESH_PRESET 9
#define KHUYAPESH_RAW 10
#define KHUYAPESH_BATCH_NUMBER 11
#define KHUYAPESH_ALARMS 12 /* 19 bits: alarm 1 has the weight 2 to the 18th, alarm 19 the weight 1 */
/* and for each of the 32 parameters, i = 0 to 31 in rising code, its value and its level. */
#define KHUYAPESH_VALUE(i) (13 + 2 * (i))
#define KHUYAPESH_LEVEL(i) (14 + 2 * (i))
#define KHUYAPESH_FIELDS 77

/* What a field may hold, as one number, its set. Of phase, flags, recipe and levels: bit n (weight 2 to the n) for the number
 * n. Of address, access, preset, raw, batch number and values: the number that it holds, or KHUYAPESH_ANY for any in its
 * range. Of the alarms: in bit 0 whether none may be on; in the bits above it, taken as a number m, what may be on if some
 * are: 0 nothing, 1 to 0x7ffff just those alarms, 0x80000 any that AR does not reset, anything above any. khuyapesh_may_hold
 * tells of each number whether it is in a set. */
#define KHUYAPESH_ANY 0xffffffffu

/* The kind of a link. */
#define KHUYAPESH_MINICOMPUTER 0
#define KHUYAPESH_TERMINAL 1

/* The panel's events. */
#define KHUYAPESH_PULSES 0
#define KHUYAPESH_STILL 1
#define KHUYAPESH_KEYPAD_ON 2
#define KHUYAPESH_KEYPAD_OFF 3
#define KHUYAPESH_POWER_BACK 4
#define KHUYAPESH_ALARM_ON 5
#define KHUYAPESH_ALARM_OFF 6

/* What is answered: a length (4 to 64; of a Modbus reply 5 to 255), one of these, */
#define KHUYAPESH_DONE 0u
#define KHUYAPESH_FITS 0u
#define KHUYAPESH_REFUTED 1u
#define KHUYAPESH_NOT_JUDGED 2u
#define KHUYAPESH_NO_MORE 1u
/* one of these reasons of khuyapesh_why, */
#define KHUYAPESH_REPLY_TO_SILENCE 1u
#define KHUYAPESH_NO_REPLY 2u
#define KHUYAPESH_NO_RECORD 3u
#define KHUYAPESH_FIELD 4u
#define KHUYAPESH_KEPT_BATCH 5u
/* or, from 100 on (of the two functions for Modbus from 900 on), one of these classes plus the number that documents 01 and
 * 02 give within it:
 *     silences: S2 short reply buffer, S3 request's length, S4 mark, S5 check, S6 text byte, S7 address or code not of its
 *         form, S8 another address, S9 no record or too many on a board, S11 an address twice on it (a record that is not
 *         valid, S1 and S10, is answered by its K)
 *     stored bytes: K1 length, K2 version that is not the length's, K3 length field, K4 field out of range, K6
 *         short buffer, K7 a bank of wrong version, length or field
 *     no such kind or event: alone, nothing is added
 *     host side: H1 short buffer, H2 text's length, H3 text byte
 *     recordings: J1 length, J2 version, J3 length field, J4 address or access, J5 cut exchange
 *     drum change refused: Q0 address, Q1 recipe, Q2 factor, Q3 preset, Q4 no reply is awaited or the state is out of range
 *     drum change stopped by a wrong reply: the step, 1 NR, 2 PC, 3 PV, 4 RC, 5 SB
 *     totals: W1 unequal lengths, W2 over KHUYAPESH_TOTALS_BATCHES, W3 a recipe, factor or raw volume out of range
 *     Modbus silences: M2 short reply buffer, M3 frame's length, M4 CRC, M5 another slave or slave 0, M6 function over
 *         127, M7 a read's length, M8 a write's length (a record or bank that is not valid, M1, is answered by its K)
 *     stored bytes that are lent to the functions for Modbus: K1 to K4, K6 and K7 as above, in a class of their own, for a
 *         reply of the standard may have as many bytes as 200 + n */
#define KHUYAPESH_SILENCE 100u
#define KHUYAPESH_STORED 200u
#define KHUYAPESH_NO_SUCH 300u
#define KHUYAPESH_HOST 400u
#define KHUYAPESH_RECORDING 500u
#define KHUYAPESH_DRUM 600u
#define KHUYAPESH_STOPPED 700u
#define KHUYAPESH_TOTALS 800u
#define KHUYAPESH_MODBUS 900u
#define KHUYAPESH_MODBUS_STORED 1200u

/* Whether an answer is a silence or refusal: of khuyapesh_modbus and khuyapesh_banked_modbus by the second of these, of all
 * other functions by the first. If so, its class and its number within that. */
static inline int khuyapesh_is_refusal(uint32_t answer) { return answer >= KHUYAPESH_SILENCE; }
static inline int khuyapesh_is_modbus_refusal(uint32_t answer) { return answer >= KHUYAPESH_MODBUS; }
static inline uint32_t khuyapesh_class(uint32_t answer) { return answer - answer % 100u; }
static inline uint32_t khuyapesh_number(uint32_t answer) { return answer % 100u; }

#ifdef __cplusplus
extern "C" {
#endif

/* One call of the controller. Answers the reply's length, with the reply at the start of the reply buffer, the rest of
 * which stays, and the record after it in place of the stored record; or no such kind, then K1 to K4, then K6 for a stored
 * record of version 1, whose bytes have no room for the form that is written (khuyapesh_stored brings it there), then S2 to
 * S8. */
uint32_t khuyapesh_call(uint8_t kind, uint8_t *stored, size_t stored_length, const uint8_t *request, size_t request_length,
                        uint8_t *reply, size_t reply_length);

/* Answers all minicomputer frames in the lent bytes, in order, as khuyapesh_call would one by one. A byte that is not STX
 * is skipped; so is an STX whose text has a byte that is none of a text, or a 61st, or whose frame is silent by other than
 * S8. Stops at an STX if the bytes end before this is decided, or if an answer is due and under KHUYAPESH_FRAME_ROOM bytes
 * of reply room are left. Answers KHUYAPESH_DONE, with the bytes taken in *taken, the frames answered in *answered, the
 * reply bytes in *written, the replies end to end at the start of the reply buffer, the rest of which stays, and the record
 * after them in place of the stored record; or K1 to K4, then K6 as in khuyapesh_call, with 0 in all three. If at the end
 * there was room for an answer more, at most KHUYAPESH_FRAME_ROOM - 1 bytes are left untaken: lend them again before those
 * that come next, in a buffer that holds so many more than a tick brings. Reply room of KHUYAPESH_FRAME_ROOM bytes for every
 * 8 that are lent, and as many more, is always enough. */
uint32_t khuyapesh_several(uint8_t *stored, size_t stored_length, const uint8_t *bytes, size_t bytes_length, uint8_t *reply,
                           size_t reply_length, size_t *taken, size_t *answered, size_t *written);

/* One call of the controller with a bank of finished batches beside its record. The bank is lent as a buffer of exactly
 * KHUYAPESH_BANK_LENGTH bytes that starts with a stored bank, whose own length field says how far it reaches; it grows
 * in place, and what stands behind it keeps its values. RT R NNN is answered from the bank, 001 the newest, or by NO03;
 * an accepted ET from Stopped or Done stores the batch, and the oldest of KHUYAPESH_BANK_BATCHES gives its room to it;
 * all else is as in khuyapesh_call, which has no bank and answers RT R NNN by NO01. Answers the reply's length, with
 * the reply at the start of the reply buffer, the rest of which stays, and the record and the bank after it in their
 * places; or no such kind, then K1 to K4 or K6 for the record as in khuyapesh_call, then K7 for the bank, also if
 * bank_length is any other, then S2 to S8. */
uint32_t khuyapesh_banked_call(uint8_t kind, uint8_t *stored, size_t stored_length, uint8_t *bank, size_t bank_length,
                               const uint8_t *request, size_t request_length, uint8_t *reply, size_t reply_length);

/* Answers all minicomputer frames in the lent bytes as khuyapesh_several does, as khuyapesh_banked_call would one by
 * one. Answers KHUYAPESH_DONE, with the bank after them in its place; or K1 to K4 or K6 for the record, then K7 for the
 * bank, with 0 in all three numbers. */
uint32_t khuyapesh_banked_several(uint8_t *stored, size_t stored_length, uint8_t *bank, size_t bank_length,
                                  const uint8_t *bytes, size_t bytes_length, uint8_t *reply, size_t reply_length,
                                  size_t *taken, size_t *answered, size_t *written);

/* One call of a board with up to KHUYAPESH_BOARD_RECORDS records, each with an address of its own, lent end to end in their
 * stored form: the request goes to the record with its address. Answers the reply's length, with the reply at the start of
 * the reply buffer, the rest of which stays, and the record after it in its place; no byte of another record is written. Or
 * no such kind, then K1 if stored_length is no multiple of KHUYAPESH_STORED_LENGTH, then S9, then K2 to K4 of the first
 * record that is refused, whichever the request is for, then S11, then S2 to S8. Neither the reply nor the record depends on
 * anything of another record but its address and that it is good. */
uint32_t khuyapesh_board(uint8_t kind, uint8_t *stored, size_t stored_length, const uint8_t *request, size_t request_length,
                         uint8_t *reply, size_t reply_length);

/* One call of the controller as a slave on Modbus RTU, whose slave address is the record's. The parameter i = 0 to 31 in
 * rising code is the registers 2 i and 2 i + 1, high word first. The request is one whole frame with its CRC (on a line it
 * ends with a silence of 3.5 characters). Function 3 reads any of the registers; function 16 writes one whole pair, and is
 * judged and takes effect as PC does. Answers the reply's length, with the reply, CRC included, at the start of the reply
 * buffer, the rest of which stays, and the record after it in place of the stored record; or K1 to K4 or K6 for the record
 * as in khuyapesh_call, in the class KHUYAPESH_MODBUS_STORED, then M2 to M8. A reply is what function 3 or 16 replies, or
 * the first of these exceptions that applies, with the record as it was:
 *     1   any other function up to 127
 *     3   a read of none or over 125 registers; a write of other than 2 registers, or with a byte count other than 4
 *     2   registers that are not all among the KHUYAPESH_REGISTERS; a write that starts at an odd one
 *     3   a value that PC refuses by NO06
 *     4   a write that PC refuses by NO02, NO07 or NO05 */
uint32_t khuyapesh_modbus(uint8_t *stored, size_t stored_length, const uint8_t *request, size_t request_length,
                          uint8_t *reply, size_t reply_length);

/* The same with a bank of finished batches beside the record, lent as to khuyapesh_banked_call; it is only read. Answers as
 * khuyapesh_modbus, with K7 for the bank, in the class KHUYAPESH_MODBUS_STORED, after the record's K1 to K4 or K6 and before
 * M2 to M8. */
uint32_t khuyapesh_banked_modbus(uint8_t *stored, size_t stored_length, const uint8_t *bank, size_t bank_length,
                                 const uint8_t *request, size_t request_length, uint8_t *reply, size_t reply_length);

/* One panel event; number is the count of pulses (KHUYAPESH_PULSES) or the alarm's number (KHUYAPESH_ALARM_ON and
 * KHUYAPESH_ALARM_OFF; one outside 1 to 19 changes nothing), and the others do not read it. Answers KHUYAPESH_DONE, with
 * the record after it in place of the stored record; or no such event, then K1 to K4, then K6 as in khuyapesh_call. */
uint32_t khuyapesh_panel(uint8_t event, uint16_t number, uint8_t *stored, size_t stored_length);

/* Reads a stored record of either version and writes the record that was read, in the form of version 2, to the start of
 * out, the rest of which stays. Answers KHUYAPESH_DONE; or K1 to K4, and then the record written is the low one (every
 * field at its low end, Idle, flags and alarms off); or K6 if out is under KHUYAPESH_STORED_LENGTH bytes, with out
 * untouched, whatever the stored bytes are. */
uint32_t khuyapesh_stored(const uint8_t *stored, size_t stored_length, uint8_t *out, size_t out_length);

/* Reads a stored bank, which is all of the bank_length bytes (of a buffer that is lent to grow: those that its length
 * field says), and writes the bank that was read to the start of out, the rest of which stays. Answers K6 if out is
 * shorter than what would be written, with out untouched; else KHUYAPESH_DONE, or K7, and then the bank written is the
 * empty one, 3 bytes. */
uint32_t khuyapesh_bank(const uint8_t *bank, size_t bank_length, uint8_t *out, size_t out_length);

/* Adds batches up. Each has its raw volume, its factor and its recipe at the same place of the three lists. Answers
 * KHUYAPESH_DONE, with the exact sum of raw times factor over the batches of recipe r in sums[r - 1], in ten-thousandths
 * of a unit, and the number of these batches in counts[r - 1]; or W1 to W3, and then these sums and counts are all 0; what
 * stands behind the first KHUYAPESH_RECIPES of either stays. Or, before all of these, H1 for under KHUYAPESH_RECIPES sums or
 * counts, with both untouched. */
uint32_t khuyapesh_totals(const uint32_t *raws, size_t raws_length, const uint32_t *factors, size_t factors_length,
                          const uint32_t *recipes, size_t recipes_length, uint64_t *sums, size_t sums_length,
                          uint32_t *counts, size_t counts_length);

/* Adds up the batches of a stored bank, which is all of the bank_length bytes (of a buffer that is lent to grow: those that
 * its length field says). Answers KHUYAPESH_DONE, with sums and counts as khuyapesh_totals gives them; or K7, and then they
 * are all 0; or, before these, H1 as in khuyapesh_totals. */
uint32_t khuyapesh_bank_totals(const uint8_t *bank, size_t bank_length, uint64_t *sums, size_t sums_length, uint32_t *counts,
                               size_t counts_length);

/* Writes a sum, in ten-thousandths of a unit, as units with four decimals to the start of out, the rest of which stays:
 * 5075000 as 507.5000, 42 as 0.0042. Answers its length, 6 to 21; or H1 if out is under KHUYAPESH_FRAME_ROOM bytes, with out
 * untouched. */
uint32_t khuyapesh_units(uint64_t sum, uint8_t *out, size_t out_length);

/* Writes what the program `totals` writes for a stored bank to the start of out, the rest of which stays: for each recipe
 * that occurs in it, rising, a line with the recipe in two digits, the number of its batches and their sum, as in
 * `03 1 507.5000`; nothing for an empty bank. Answers KHUYAPESH_DONE; or K7, and then the text is the line `refused K7`; with
 * the number of bytes in *written in both. Or, before these, H1 if out is under KHUYAPESH_TOTALS_ROOM bytes, with out
 * untouched and 0 in *written. Each line ends with one LF; no 0 byte stands behind the last. */
uint32_t khuyapesh_totals_text(const uint8_t *bank, size_t bank_length, uint8_t *out, size_t out_length, size_t *written);

/* Host side: builds the frame of a text at the start of out, the rest of which stays. Answers the frame's length; or no
 * such kind, then H1 to H3. */
uint32_t khuyapesh_build(uint8_t kind, const uint8_t *text, size_t text_length, uint8_t *out, size_t out_length);

/* Host side: copies a frame's text to the start of out, the rest of which stays. Answers the text's length; or no such
 * kind, then H1, then S3 to S6. */
uint32_t khuyapesh_read(uint8_t kind, const uint8_t *frame, size_t frame_length, uint8_t *out, size_t out_length);

/* Judges a recording. Answers KHUYAPESH_FITS for `fits N`, with 0 in *place and N in *count; KHUYAPESH_REFUTED for
 * `refuted at I of N`, with I in *place and N in *count; KHUYAPESH_NOT_JUDGED for `not judged at I`, with I in *place
 * and N in *count; J1 to J5 for `refused Jn`, with 0 in both. The controller is one with a bank, of which nothing is
 * known but that it is valid. A recording is not judged from the first exchange on whose request asks for a kept batch,
 * RT R NNN, and meets no silence: that is exchange I of `not judged at I`. Those before it, taken alone, fit then, and
 * nothing is said of it nor of those behind it. */
uint32_t khuyapesh_judge(const uint8_t *recording, size_t recording_length, size_t *place, size_t *count);

/* What a recording tells of the record after its first exchanges (more of them than there are count as all): the records
 * that a right controller may hold then are exactly those whose every field is in its set. Answers KHUYAPESH_DONE, with the
 * set of each field at its number in sets, the rest of which stays, and 0 in *place; or H1 for under KHUYAPESH_FIELDS sets,
 * then J1 to J5, with 0 in *place; or KHUYAPESH_REFUTED where one of these exchanges refutes the recording, with that one in
 * *place; or KHUYAPESH_NOT_JUDGED where one of them is the one at which the recording is not judged, with that one in
 * *place. */
uint32_t khuyapesh_known(const uint8_t *recording, size_t recording_length, size_t exchanges, uint32_t *sets,
                         size_t sets_length, size_t *place);

/* One exchange more: from the sets before it, those after it. From the sets of khuyapesh_known of some exchanges, with
 * the recording's address and access, and the exchange that comes next, it gives those of khuyapesh_known of one more;
 * so a line can be followed while it talks, from the sets of a recording without exchanges on. Answers H1 for under
 * KHUYAPESH_FIELDS sets; else KHUYAPESH_NOT_JUDGED if the request asks for a kept batch and meets no silence, whatever
 * the sets and the reply; else KHUYAPESH_REFUTED if no record with its fields in the sets gives this reply; else
 * KHUYAPESH_FITS, with the sets after it in their place. */
uint32_t khuyapesh_learn(uint8_t address, uint8_t access, const uint8_t *request, size_t request_length,
                         const uint8_t *reply, size_t reply_length, uint32_t *sets, size_t sets_length);

/* Whether the set of a field has a number: 1 or 0. A number out of the field's range is in no set, and there is no field from
 * KHUYAPESH_FIELDS on. */
uint32_t khuyapesh_may_hold(size_t field, uint32_t set, uint32_t number);

/* Why a recording is refuted, or not judged to its end. Answers KHUYAPESH_FITS if it fits, with 0 in *place; J1 to J5,
 * with 0 in *place; KHUYAPESH_KEPT_BATCH for `not judged at I`, with I in *place; else, with the refuted exchange in
 * *place, one of
 *     KHUYAPESH_REPLY_TO_SILENCE   it has a reply, but every controller with the address is silent; n of Sn in *number
 *     KHUYAPESH_NO_REPLY           it has no reply, but every controller with the address replies
 *     KHUYAPESH_NO_RECORD          no valid record with the address and the access gives this reply, whatever its fields
 *     KHUYAPESH_FIELD              some do, but none with the field in *number as it is known to be: before this exchange
 *                                  its set is *held, this reply needs one of *needed, and these have no number in common;
 *                                  if that is so of several fields, *number is the lowest
 * and 0 in what is not named. */
uint32_t khuyapesh_why(const uint8_t *recording, size_t recording_length, size_t *place, uint32_t *number, uint32_t *held,
                       uint32_t *needed);

/* The exchange whose first byte, its request's length, is byte number at of a recording, counted from 0; the first of all is
 * byte 5. Answers KHUYAPESH_DONE, with the request in the bytes from *request up to and without *stop, the reply in those
 * from *reply up to and without *end, and the next exchange at *end; KHUYAPESH_NO_MORE if at is no byte of it; J5 for an
 * exchange that is cut by the end; with 0 in all four. */
uint32_t khuyapesh_exchange(const uint8_t *recording, size_t recording_length, size_t at, size_t *request, size_t *stop,
                            size_t *reply, size_t *end);

/* Drum change: gives a unit a recipe (1 to 8) with a new factor (8,000 to 12,000), and a batch of the preset (1 to 999,999)
 * only after the unit has shown that it holds both. It hands out the requests NR, PC, PV, RC and SB in turn, as minicomputer
 * frames, at the start of the request buffer, the rest of which stays. Send each, lend what came back to
 * khuyapesh_drum_take (for a silence no bytes), and go on until the answer is no length. A reply is right only byte for byte.
 *
 * The state is KHUYAPESH_DRUM_STATE bytes, numbers high byte first: address 1, recipe 1, factor 2, preset 3, step 1 (1 to 5:
 * that reply is awaited; 6: ended; 11 to 15: stopped at step 1 to 5). Any request still out when it is begun anew is forgotten.
 *
 * khuyapesh_drum_begin answers the first request's length, with the state written; or Q0 to Q3, then Q4 for a state that is not
 * of that length, then H1 for a request buffer under KHUYAPESH_FRAME_ROOM bytes. It does not look at what the state held. */
uint32_t khuyapesh_drum_begin(uint8_t address, uint8_t recipe, uint32_t factor, uint32_t preset, uint8_t *state,
                              size_t state_length, uint8_t *request, size_t request_length);

/* Takes the reply to the request that was handed out last. Answers the next request's length, or KHUYAPESH_DONE after SB's OK,
 * or a stop at the step whose reply was wrong, each with the state after it; or Q4, then H1, with nothing changed, so that the
 * same reply may be lent again. */
uint32_t khuyapesh_drum_take(uint8_t *state, size_t state_length, const uint8_t *reply, size_t reply_length, uint8_t *request,
                             size_t request_length);

#ifdef __cplusplus
}
#endif

#endif
