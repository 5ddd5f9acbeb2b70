/* A blending controller behind a pseudo terminal, to try a host's program against: opens a new one, writes its name as a line,
 * and answers the frames that come over it until standard input ends. Faults can be asked for. C99 and C++, with POSIX. */
#define _XOPEN_SOURCE 700
#include <errno.h>
#include <fcntl.h>
#include <poll.h>
#include <stdio.h>
#include <stdlib.h>
#include <string.h>
#include <termios.h>
#include <unistd.h>

#include "../../include/khuyapesh.h"

/* The most that is lent: what can be left untaken, and the next byte; and the room for replies that always suffices. */
#define LENT KHUYAPESH_FRAME_ROOM
#define REPLIES (KHUYAPESH_FRAME_ROOM * (LENT / 8 + 1))

/* Where a stored record has the address, and the value of recipe 3's factor: 4 bytes, high byte first. */
#define ADDRESS_PLACE 3
#define FACTOR_3_PLACE 55

/* The address, the first request that gets no reply, whether the keypad is on, and the fault of the forty discs. */
struct settings {
    uint32_t address, silent_from;
    int keypad, old_factor;
};

/* The record, and what has come in and is not taken yet: nothing, or what may be the start of a frame. */
static uint8_t stored[KHUYAPESH_STORED_LENGTH], lent[LENT];
static size_t held;

static const char usage[] =
    "usage: unit [--address N] [--keypad] [--old-factor] [--silent N]\n"
    "\n"
    "Plays a controller: writes the name of its line to standard output and answers there until standard input ends. It is\n"
    "Idle, and recipe 3 has factor 10012.\n"
    "    --address N     1 to 99; 7 if not given\n"
    "    --keypad        its keypad is on\n"
    "    --old-factor    it says OK to every PC and keeps the old value\n"
    "    --silent N      the Nth request and all after it get no reply\n"
    "\n"
    "Status 0: standard input ended; 1: the line failed; 2: wrong usage.\n";

/* ---- the record */

/* Lays a number into the record. */
static void put_number(size_t place, uint32_t number)
{
    stored[place] = (uint8_t)(number >> 24);
    stored[place + 1] = (uint8_t)(number >> 16);
    stored[place + 2] = (uint8_t)(number >> 8);
    stored[place + 3] = (uint8_t)number;
}

/* Makes the record, and answers whether it is a good one: an address may be out of its range. */
static int make_record(const struct settings *settings)
{
    /* no bytes are no record, and the low one is written: Idle, access 0, every level 0 */
    khuyapesh_stored(lent, 0, stored, sizeof stored);
    stored[ADDRESS_PLACE] = (uint8_t)settings->address;
    put_number(FACTOR_3_PLACE, 10012);
    return khuyapesh_panel(settings->keypad ? KHUYAPESH_KEYPAD_ON : KHUYAPESH_KEYPAD_OFF, 0, stored, sizeof stored) ==
           KHUYAPESH_DONE;
}

/* ---- the line */

/* Sets a line to bytes with nothing in between: above all no echo. */
static int set_raw(int line)
{
    struct termios wanted;

    if (tcgetattr(line, &wanted) != 0)
        return 0;
    wanted.c_iflag = 0;
    wanted.c_oflag = 0;
    wanted.c_lflag = 0;
    wanted.c_cflag = CS8 | CREAD | CLOCAL;
    wanted.c_cc[VMIN] = 1;
    wanted.c_cc[VTIME] = 0;
    return tcsetattr(line, TCSANOW, &wanted) == 0;
}

/* Opens a line, and writes the name of its other end once a host can use it. That end stays open here too, so that hosts may
 * come and go. Answers -1 if it cannot be opened. */
static int open_line(void)
{
    int line = posix_openpt(O_RDWR | O_NOCTTY), other_end;
    const char *name;

    if (line < 0 || grantpt(line) != 0 || unlockpt(line) != 0 || fcntl(line, F_SETFL, O_NONBLOCK) != 0)
        return -1;
    name = ptsname(line);
    if (name == NULL)
        return -1;
    other_end = open(name, O_RDWR | O_NOCTTY);
    if (other_end < 0 || !set_raw(other_end))
        return -1;
    printf("%s\n", name);
    return fflush(stdout) == 0 ? line : -1;
}

/* Sends a reply. What finds no room, because no host reads, is lost as on a wire. */
static void transmit(int line, const uint8_t *reply, size_t length)
{
    while (length > 0) {
        ssize_t sent = write(line, reply, length);

        if (sent < 0 && errno != EINTR)
            return;
        if (sent > 0) {
            reply += sent;
            length -= (size_t)sent;
        }
    }
}

/* ---- the replies */

/* What is held is a whole frame with a PC for this unit. */
static int is_change(const char *address)
{
    uint8_t text[KHUYAPESH_FRAME_ROOM];
    uint32_t length = khuyapesh_read(KHUYAPESH_MINICOMPUTER, lent, held, text, sizeof text);

    return !khuyapesh_is_refusal(length) && memcmp(text, address, 2) == 0 && memcmp(text + 2, "PC", 2) == 0;
}

/* Takes the next byte. Answers the length of the reply that it makes due, or 0; it completes one frame at most. */
static size_t take(uint8_t byte, const struct settings *settings, uint8_t *reply)
{
    size_t taken, answered, written;
    char okay[32];

    lent[held++] = byte;
    snprintf(okay, sizeof okay, "%02luOK", (unsigned long)settings->address);
    if (settings->old_factor && is_change(okay)) {
        held = 0;
        return khuyapesh_build(KHUYAPESH_MINICOMPUTER, (const uint8_t *)okay, strlen(okay), reply, REPLIES);
    }
    khuyapesh_several(stored, sizeof stored, lent, held, reply, REPLIES, &taken, &answered, &written);
    held -= taken;
    memmove(lent, lent + taken, held);
    return written;
}

/* Replies to what has come in, and answers whether the line is still there. */
static int serve(int line, const struct settings *settings)
{
    static uint32_t requests;
    uint8_t bytes[256], reply[REPLIES];
    ssize_t count = read(line, bytes, sizeof bytes), place;

    for (place = 0; place < count; place++) {
        size_t length = take(bytes[place], settings, reply);

        if (length > 0 && ++requests < settings->silent_from)
            transmit(line, reply, length);
    }
    return count > 0 || (count < 0 && (errno == EINTR || errno == EAGAIN));
}

/* Throws away what standard input has, and answers whether it has ended. */
static int has_ended(void)
{
    uint8_t bytes[256];
    ssize_t count = read(STDIN_FILENO, bytes, sizeof bytes);

    return count == 0 || (count < 0 && errno != EINTR && errno != EAGAIN);
}

/* Serves the line until standard input ends, or the line fails. Answers the program's status. */
static int run(int line, const struct settings *settings)
{
    for (;;) {
        struct pollfd polled[] = {{STDIN_FILENO, POLLIN, 0}, {line, POLLIN, 0}};

        if (poll(polled, 2, -1) < 0) {
            if (errno != EINTR)
                return 1;
            continue;
        }
        if (polled[0].revents != 0 && has_ended())
            return 0;
        if (polled[1].revents != 0 && !serve(line, settings))
            return 1;
    }
}

/* ---- the arguments */

/* The number that a decimal text stands for; the most there is if that is above it, or if the text is not decimal. */
static uint32_t number_of(const char *text, uint32_t most)
{
    uint64_t number = 0;

    if (*text == '\0' || text[strspn(text, "0123456789")] != '\0')
        return most;
    for (; *text != '\0' && number < most; text++)
        number = 10 * number + (uint64_t)(*text - '0');
    return number < most ? (uint32_t)number : most;
}

/* Takes an option, with its value where it has one. Answers how many words that are, or 0 if there is no such option. */
static int take_option(const char *name, const char *value, struct settings *settings)
{
    if (strcmp(name, "--keypad") == 0) {
        settings->keypad = 1;
        return 1;
    }
    if (strcmp(name, "--old-factor") == 0) {
        settings->old_factor = 1;
        return 1;
    }
    if (value != NULL && strcmp(name, "--address") == 0) {
        settings->address = number_of(value, UINT8_MAX);
        return 2;
    }
    if (value != NULL && strcmp(name, "--silent") == 0) {
        settings->silent_from = number_of(value, UINT32_MAX);
        return settings->silent_from < UINT32_MAX ? 2 : 0;
    }
    return 0;
}

static int take_options(char **words, struct settings *settings)
{
    while (*words != NULL) {
        int taken = take_option(words[0], words[1], settings);

        if (taken == 0)
            return 0;
        words += taken;
    }
    return 1;
}

int main(int count, char **words)
{
    struct settings settings = {7, UINT32_MAX, 0, 0};
    int line;

    if (count < 1 || !take_options(words + 1, &settings) || !make_record(&settings)) {
        fputs(usage, stderr);
        return 2;
    }
    line = open_line();
    if (line < 0) {
        perror("unit: no line could be opened");
        return 1;
    }
    return run(line, &settings);
}
