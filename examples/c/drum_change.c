/* A drum change over a serial line: gives a unit a recipe with a new factor, and a batch only after the unit has shown that it
 * holds both. Says in plain words what was asked, what came back and, where it stops, what that means for the drum. C99 and
 * C++, with POSIX. */
#define _XOPEN_SOURCE 700
#include <errno.h>
#include <fcntl.h>
#include <poll.h>
#include <stdio.h>
#include <string.h>
#include <termios.h>
#include <time.h>
#include <unistd.h>

#include "../../include/khuyapesh.h"

/* The statuses that the program ends with. */
enum { ENDED, STOPPED, REFUSED, NO_LINE };

/* The picks, in the order of the arguments and of their Q numbers; of each the most that the library's argument holds, which
 * is above its range, and the range. */
enum { ADDRESS, RECIPE, FACTOR, PRESET, PICKS };
static const struct {
    const char *name;
    uint32_t most;
    const char *range;
} picks[PICKS] = {
    {"address", UINT8_MAX, "1 to 99"},
    {"recipe", UINT8_MAX, "1 to 8"},
    {"factor", UINT32_MAX, "8000 to 12000"},
    {"preset", UINT32_MAX, "1 to 999999"},
};

/* The requests by step, the last of them, and where the state has the step. */
static const char *const requests[] = {"", "NR", "PC", "PV", "RC", "SB"};
#define LAST_STEP 5
#define STEP_PLACE 7

#define ETX 0x03
#define LONGEST_WAIT 60000

/* A change: what was picked, the library's state, and the request that it handed out last. */
struct change {
    uint32_t picked[PICKS];
    uint8_t state[KHUYAPESH_DRUM_STATE];
    uint8_t request[KHUYAPESH_FRAME_ROOM];
};

struct settings {
    speed_t speed;
    int wait;
};

static const char usage[] =
    "usage: drum_change [--baud N] [--wait MS] DEVICE ADDRESS RECIPE FACTOR PRESET\n"
    "\n"
    "Gives the unit ADDRESS (1 to 99) on the serial line DEVICE the RECIPE (1 to 8) with a new FACTOR (8000 to 12000), and a\n"
    "batch of PRESET (1 to 999999) only after the unit has shown that it holds both.\n"
    "    --baud N     1200, 2400, 4800, 9600, 19200 or 38400; 9600 if not given\n"
    "    --wait MS    how long to wait for a reply, 1 to 60000; 2000 if not given\n"
    "\n"
    "Status 0: done; 1: stopped; 2: refused picks or wrong usage; 3: the device.\n";

/* ---- the line */

/* The time in milliseconds, from some moment on. */
static int64_t now(void)
{
    struct timespec moment;

    clock_gettime(CLOCK_MONOTONIC, &moment);
    return (int64_t)moment.tv_sec * 1000 + moment.tv_nsec / 1000000;
}

/* Waits until the line can be read or written: 1, or 0 if it could not for so long, or -1 if it failed. */
static int await(int line, short event, int wait)
{
    struct pollfd polled = {line, event, 0};
    int64_t end = now() + wait;
    int ready;

    do {
        int64_t left = end - now();

        ready = poll(&polled, 1, left > 0 ? (int)left : 0);
    } while (ready < 0 && errno == EINTR);
    return ready;
}

/* Reading or writing failed only for now. */
static int is_passing(void) { return errno == EINTR || errno == EAGAIN; }

/* Sends a request, and answers whether the line took it. What is unread is thrown away before: a late reply must not be taken
 * for this request's. */
static int transmit(int line, int wait, const uint8_t *request, size_t length)
{
    if (tcflush(line, TCIFLUSH) != 0)
        return 0;
    while (length > 0) {
        int ready = await(line, POLLOUT, wait);
        ssize_t sent;

        if (ready == 0)
            errno = ETIMEDOUT;
        if (ready <= 0)
            return 0;
        sent = write(line, request, length);
        if (sent < 0 && !is_passing())
            return 0;
        if (sent > 0) {
            request += sent;
            length -= (size_t)sent;
        }
    }
    /* the wait for the reply begins when the last byte has left */
    while (tcdrain(line) != 0)
        if (errno != EINTR)
            return 0;
    return 1;
}

/* Reads a byte: 1, or 0 if none came for so long, or -1 if the line failed. */
static int receive_byte(int line, int wait, uint8_t *byte)
{
    for (;;) {
        int ready = await(line, POLLIN, wait);
        ssize_t got;

        if (ready <= 0)
            return ready;
        got = read(line, byte, 1);
        if (got > 0)
            return 1;
        /* the end of a line is that it was hung up */
        if (got == 0)
            errno = EIO;
        if (got == 0 || !is_passing())
            return -1;
    }
}

/* Reads a reply, up to two bytes behind the first ETX, a silence or the reply's room. Answers its length, or -1 if the line
 * failed. */
static int receive(int line, int wait, uint8_t *reply)
{
    int length = 0, end = KHUYAPESH_FRAME_ROOM;

    while (length < end) {
        int got = receive_byte(line, wait, reply + length);

        if (got < 0)
            return -1;
        if (got == 0)
            return length;
        /* a check may be the byte of ETX too, and then moves nothing */
        if (reply[length] == ETX && length + 3 < end)
            end = length + 3;
        length++;
    }
    return length;
}

/* Sets a line to 8 data bits, no parity, one stop bit and nothing in between: no echo, no flow control, no modem lines. */
static int set_raw(int line, speed_t speed)
{
    struct termios wanted, held;

    if (tcgetattr(line, &wanted) != 0)
        return 0;
    wanted.c_iflag = 0;
    wanted.c_oflag = 0;
    wanted.c_lflag = 0;
    wanted.c_cflag = CS8 | CREAD | CLOCAL;
    wanted.c_cc[VMIN] = 1;
    wanted.c_cc[VTIME] = 0;
    if (cfsetispeed(&wanted, speed) != 0 || cfsetospeed(&wanted, speed) != 0 || tcsetattr(line, TCSANOW, &wanted) != 0)
        return 0;
    /* tcsetattr is content with a part of it */
    return tcgetattr(line, &held) == 0 && cfgetospeed(&held) == speed && (held.c_cflag & (CSIZE | CSTOPB | PARENB)) == CS8;
}

/* Opens a line to a unit, without waiting for a carrier. Answers -1, having said why, if this is none. */
static int open_line(const char *device, speed_t speed)
{
    int line = open(device, O_RDWR | O_NOCTTY | O_NONBLOCK);

    if (line < 0)
        fprintf(stderr, "drum_change: %s cannot be opened: %s\n", device, strerror(errno));
    else if (!isatty(line))
        fprintf(stderr, "drum_change: %s is not a terminal device\n", device);
    else if (tcgetpgrp(line) >= 0)
        fprintf(stderr, "drum_change: %s is the terminal that you type at\n", device);
    else if (!set_raw(line, speed))
        fprintf(stderr, "drum_change: %s cannot be set to this speed, 8 data bits and no parity\n", device);
    else
        return line;
    return -1;
}

/* ---- in plain words */

/* What a NO means; nothing for any other text. */
static const char *meaning(const uint8_t *text, size_t length)
{
    static const struct {
        const char *reply, *words;
    } refusals[] = {
        {"NO00", " (no such request)"},
        {"NO01", " (request not of its form)"},
        {"NO02", " (keypad on)"},
        {"NO04", " (no such parameter)"},
        {"NO05", " (wrong phase: not Idle or Done)"},
        {"NO06", " (number out of range)"},
        {"NO07", " (access too low)"},
        {"NO08", " (not done by this unit)"},
        {"NO09", " (alarm on)"},
        {"NO30", " (no such recipe)"},
    };
    size_t row;

    for (row = 0; row < sizeof refusals / sizeof *refusals; row++)
        if (length == 6 && memcmp(text + 2, refusals[row].reply, 4) == 0)
            return refusals[row].words;
    return "";
}

/* Shows a request before it is sent. */
static void show_request(unsigned step, const uint8_t *request, size_t length)
{
    uint8_t text[KHUYAPESH_FRAME_ROOM];
    uint32_t count = khuyapesh_read(KHUYAPESH_MINICOMPUTER, request, length, text, sizeof text);

    printf("%u %s  sent %-17.*s  ", step, requests[step], (int)count, (const char *)text);
    fflush(stdout);
}

/* Shows what came back, behind its request. */
static void show_reply(const uint8_t *reply, size_t length)
{
    uint8_t text[KHUYAPESH_FRAME_ROOM];
    uint32_t count = khuyapesh_read(KHUYAPESH_MINICOMPUTER, reply, length, text, sizeof text);
    size_t place;

    if (length == 0) {
        printf("nothing came back\n");
    } else if (!khuyapesh_is_refusal(count)) {
        printf("got %.*s%s\n", (int)count, (const char *)text, meaning(text, count));
    } else {
        printf("no good frame:");
        for (place = 0; place < length; place++)
            printf(" %02X", reply[place]);
        printf("\n");
    }
}

/* What a wrong reply means. If none came, or a damaged one, the unit may still have done what was asked: it does not count. */
static void explain(unsigned step, const uint32_t *picked)
{
    unsigned long recipe = picked[RECIPE], factor = picked[FACTOR], preset = picked[PRESET];

    switch (step) {
    case 1:
        printf("without its OK, recipe %lu counts as not taken.", recipe);
        break;
    case 2:
        printf("without its OK, factor %lu counts as not taken.", factor);
        break;
    case 3:
        printf("the unit does not show factor %lu for recipe %lu.", factor, recipe);
        break;
    case 4:
        printf("the unit does not show recipe %lu with factor %lu as the one in use.", recipe, factor);
        break;
    default:
        printf("recipe %lu and factor %lu were shown right, but the batch of %lu was not acknowledged.", recipe, factor,
               preset);
    }
}

/* Says where the change stopped and why: by a wrong reply, or by a line that failed. */
static void show_stop(unsigned step, const uint32_t *picked, int failed)
{
    printf("stopped at step %u (%s): ", step, requests[step]);
    if (failed)
        printf("the line failed.");
    else
        explain(step, picked);
    printf(step < LAST_STEP ? " No batch was set.\n" : " Look at the unit before sending again.\n");
}

/* ---- the change */

/* Sends the request, whose length this is, and all that come after it. Answers the program's status. */
static int carry_out(struct change *change, uint32_t answer, int line, int wait)
{
    unsigned long address = change->picked[ADDRESS], recipe = change->picked[RECIPE], factor = change->picked[FACTOR],
                  preset = change->picked[PRESET];

    printf("unit %02lu: recipe %lu, factor %lu, preset %lu\n", address, recipe, factor, preset);
    while (answer != KHUYAPESH_DONE && !khuyapesh_is_refusal(answer)) {
        unsigned step = change->state[STEP_PLACE];
        uint8_t reply[KHUYAPESH_FRAME_ROOM];
        int length;

        show_request(step, change->request, answer);
        length = transmit(line, wait, change->request, answer) ? receive(line, wait, reply) : -1;
        if (length < 0) {
            printf("the line failed: %s\n", strerror(errno));
            show_stop(step, change->picked, 1);
            return NO_LINE;
        }
        show_reply(reply, (size_t)length);
        answer = khuyapesh_drum_take(change->state, sizeof change->state, reply, (size_t)length, change->request,
                                     sizeof change->request);
    }
    if (khuyapesh_is_refusal(answer)) {
        show_stop(khuyapesh_number(answer), change->picked, 0);
        return STOPPED;
    }
    printf("done: unit %02lu holds recipe %lu with factor %lu, and a batch of %lu is set.\n", address, recipe, factor, preset);
    return ENDED;
}

/* ---- the arguments */

static int is_decimal(const char *text)
{
    return *text != '\0' && text[strspn(text, "0123456789")] == '\0';
}

/* The number that a text stands for; the most there is if that is above it, or if the text is not decimal. */
static uint32_t number_of(const char *text, uint32_t most)
{
    uint64_t number = 0;

    if (!is_decimal(text))
        return most;
    for (; *text != '\0' && number < most; text++)
        number = 10 * number + (uint64_t)(*text - '0');
    return number < most ? (uint32_t)number : most;
}

static int set_speed(const char *baud, speed_t *speed)
{
    static const struct {
        const char *baud;
        speed_t speed;
    } speeds[] = {{"1200", B1200}, {"2400", B2400}, {"4800", B4800}, {"9600", B9600}, {"19200", B19200}, {"38400", B38400}};
    size_t row;

    for (row = 0; row < sizeof speeds / sizeof *speeds; row++)
        if (strcmp(baud, speeds[row].baud) == 0) {
            *speed = speeds[row].speed;
            return 1;
        }
    return 0;
}

static int set_wait(const char *text, int *wait)
{
    *wait = (int)number_of(text, LONGEST_WAIT + 1);
    return 1 <= *wait && *wait <= LONGEST_WAIT;
}

/* Takes an option with its value, which is empty where there is none. */
static int set_option(const char *name, const char *value, struct settings *settings)
{
    if (strcmp(name, "--baud") == 0)
        return set_speed(value, &settings->speed);
    return strcmp(name, "--wait") == 0 && set_wait(value, &settings->wait);
}

/* Takes the options. Answers how many words come before DEVICE, or -1, having said what is wrong. */
static int take_options(int count, char **words, struct settings *settings)
{
    int place = 1;

    while (place < count && words[place][0] == '-') {
        const char *value = place + 1 < count ? words[place + 1] : "";

        if (strcmp(words[place], "--") == 0)
            return place + 1;
        if (!set_option(words[place], value, settings)) {
            fprintf(stderr, "drum_change: there is no option %s %s\n", words[place], value);
            return -1;
        }
        place += 2;
    }
    return place;
}

/* Begins with what was picked. All picks are read before any is judged, and only the library judges them, in its own order. */
static uint32_t begin(struct change *change, char **texts)
{
    uint32_t *picked = change->picked;
    size_t pick;

    for (pick = 0; pick < PICKS; pick++)
        picked[pick] = number_of(texts[pick], picks[pick].most);
    return khuyapesh_drum_begin((uint8_t)picked[ADDRESS], (uint8_t)picked[RECIPE], picked[FACTOR], picked[PRESET],
                                change->state, sizeof change->state, change->request, sizeof change->request);
}

static void show_refusal(uint32_t pick, const char *text)
{
    fprintf(stderr, "Q%lu: the %s %s is not %s%s; nothing was sent\n", (unsigned long)pick, picks[pick].name, text,
            picks[pick].range, is_decimal(text) ? "" : " in digits alone");
}

int main(int count, char **words)
{
    struct change change;
    struct settings settings = {B9600, 2000};
    uint32_t answer;
    int place, line;

    if (count == 2 && (strcmp(words[1], "-h") == 0 || strcmp(words[1], "--help") == 0)) {
        fputs(usage, stdout);
        return ENDED;
    }
    place = take_options(count, words, &settings);
    if (place < 0 || count - place != 1 + PICKS) {
        fputs(usage, stderr);
        return REFUSED;
    }
    answer = begin(&change, words + place + 1);
    /* state and buffer have their lengths, so this is one of Q0 to Q3 */
    if (khuyapesh_is_refusal(answer)) {
        show_refusal(khuyapesh_number(answer), words[place + 1 + (int)khuyapesh_number(answer)]);
        return REFUSED;
    }
    line = open_line(words[place], settings.speed);
    return line < 0 ? NO_LINE : carry_out(&change, answer, line, settings.wait);
}
