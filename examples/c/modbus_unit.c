/* A blending controller as a slave on Modbus RTU, for a panel that speaks nothing else: on a serial line, or on a new
 * pseudo terminal to try a panel against. What is answered is the library's alone; here are the line, where a frame ends,
 * and the file that keeps the record. C99 and C++, with POSIX. */
#define _XOPEN_SOURCE 700
#include <errno.h>
#include <fcntl.h>
#include <libgen.h>
#include <poll.h>
#include <stdio.h>
#include <stdlib.h>
#include <string.h>
#include <termios.h>
#include <time.h>
#include <unistd.h>

#include "../../include/khuyapesh.h"

/* The statuses that the program ends with. */
enum { ENDED, NO_LINE, WRONG_USAGE, NO_RECORD };

/* Where a stored record has these; each parameter has a value of 4 bytes, high byte first, and a level of 1. */
enum { ADDRESS_PLACE = 3, ACCESS_PLACE = 4, RECIPE_PLACE = 7, NUMBER_PLACE = 15, PARAMETERS_PLACE = 20 };
enum { PARAMETER_LENGTH = 5 };

/* The parameters and, of these by rising code from 0, recipe 3's factor (032) and the pulses per unit (807). */
enum { PARAMETERS = KHUYAPESH_REGISTERS / 2, FACTOR_3 = 7, PULSES_PER_UNIT = 30 };

/* In milliseconds; the longest reply, at the lowest rate, takes 2400 to send. */
#define LONGEST_SILENCE 10000
#define LONGEST_SENDING 3000

#define LONGEST_NAME 4096

/* The rates. Those above 38400 are not of POSIX, but of every system that has it. */
struct rate {
    const char *name;
    uint32_t baud;
    speed_t speed;
};
static const struct rate rates[] = {{"1200", 1200, B1200},    {"2400", 2400, B2400},    {"4800", 4800, B4800},
                                    {"9600", 9600, B9600},    {"19200", 19200, B19200}, {"38400", 38400, B38400},
                                    {"57600", 57600, B57600}, {"115200", 115200, B115200}};

/* The parities. A character has 11 bits with each of them: without a parity bit the standard asks for two stop bits. */
struct parity {
    const char *name;
    tcflag_t flags;
};
enum { EVEN, ODD, NONE };
static const struct parity parities[] = {{"even", PARENB}, {"odd", PARENB | PARODD}, {"none", CSTOPB}};

/* What was asked for. No device is a new pseudo terminal, no file the bench record; a silence of 0 is the standard's. */
struct settings {
    const char *device, *file, *address;
    const struct rate *rate;
    const struct parity *parity;
    int silence, keypad, log;
};

/* The record; and what has come in since the last silence, and when the last byte of it did. A byte more is held than a
 * frame may have: with that it is too long, and what comes behind is let go. */
static uint8_t stored[KHUYAPESH_STORED_LENGTH], request[KHUYAPESH_MODBUS_ROOM + 1];
static size_t held;
static int64_t last_came;

static const char usage[] =
    "usage: modbus_unit [--address N] [--baud N] [--parity even|odd|none] [--silence MS] [--record FILE] [--keypad]\n"
    "                   [--log] [DEVICE]\n"
    "\n"
    "Plays a controller that is a slave on Modbus RTU: on the serial line DEVICE until it is stopped; without DEVICE on\n"
    "a new pseudo terminal, whose name it writes to standard output, until standard input ends.\n"
    "    --address N      the slave's address, 1 to 99, in place of the record's; saved in FILE with the first change\n"
    "    --baud N         1200, 2400, 4800, 9600, 19200, 38400, 57600 or 115200; 19200 if not given\n"
    "    --parity P       even, odd, or none with two stop bits; even if not given\n"
    "    --silence MS     so long a silence ends a frame, 1 to 10000; if not given, that of the standard, 3.5 characters,\n"
    "                     in whole milliseconds (3 at 19200). Converters on USB hand frames over in pieces: try 20\n"
    "    --record FILE    the stored record, which is saved there again when a write has changed it; if not given, the\n"
    "                     bench record: address 1, access 2, Idle, 032 is 10012, 807 is closed to the link\n"
    "    --keypad         its keypad is on\n"
    "    --log            each frame and its reply, or why there is none, go to standard error\n"
    "\n"
    "Status 0: standard input ended; 1: the line; 2: wrong usage; 3: the record or its file.\n";

/* ---- the time */

/* The time in microseconds, from some moment on. */
static int64_t now(void)
{
    struct timespec moment;

    clock_gettime(CLOCK_MONOTONIC, &moment);
    return (int64_t)moment.tv_sec * 1000000 + moment.tv_nsec / 1000;
}

static int64_t milliseconds_after(int64_t moment, int count)
{
    return moment + (int64_t)count * 1000;
}

/* The milliseconds that are left until a moment, rounded up, so that no wait is too short; 0 once it has come. */
static int left_until(int64_t moment)
{
    int64_t left = moment - now();

    return left > 0 ? (int)((left + 999) / 1000) : 0;
}

/* ---- the record */

/* Lays a number into a record, high byte first. */
static void put_number(size_t place, size_t length, uint32_t number)
{
    for (; length > 0; length--, number >>= 8)
        stored[place + length - 1] = (uint8_t)number;
}

/* The bench record: all at its low end but this. */
static void make_bench_record(void)
{
    size_t place;

    /* no bytes are no record, and the low one is written */
    khuyapesh_stored(request, 0, stored, sizeof stored);
    stored[ACCESS_PLACE] = 2;
    stored[RECIPE_PLACE] = 3;
    put_number(NUMBER_PLACE, 2, 9999);
    put_number(PARAMETERS_PLACE + FACTOR_3 * PARAMETER_LENGTH, 4, 10012);
    for (place = 0; place < PARAMETERS; place++)
        stored[PARAMETERS_PLACE + place * PARAMETER_LENGTH + 4] = place == PULSES_PER_UNIT ? 3 : 1;
}

/* What is wrong with stored bytes that are refused, by the number of their K. */
static const char *refusal_of(uint32_t number)
{
    static const char *const reasons[] = {"", "it has not the length of one", "its version is not that of its length",
                                          "its length field is not its length", "a field is out of its range"};

    return number < sizeof reasons / sizeof *reasons ? reasons[number] : "";
}

/* Reads the record from its file, of either version. Answers whether it is one, having said why not. */
static int load(const char *file)
{
    uint8_t bytes[KHUYAPESH_STORED_LENGTH + 1];
    FILE *input = fopen(file, "rb");
    size_t length = input != NULL ? fread(bytes, 1, sizeof bytes, input) : 0;
    uint32_t answer;

    if (input == NULL || ferror(input)) {
        fprintf(stderr, "modbus_unit: %s cannot be read: %s\n", file, strerror(errno));
        return 0;
    }
    fclose(input);
    answer = khuyapesh_stored(bytes, length, stored, sizeof stored);
    if (khuyapesh_is_refusal(answer)) {
        fprintf(stderr, "modbus_unit: %s is no stored record: K%lu, %s\n", file, (unsigned long)khuyapesh_number(answer),
                refusal_of(khuyapesh_number(answer)));
        return 0;
    }
    return 1;
}

/* Writes the record to a new file, and answers whether it is on the disk. If not, there is no such file, and errno says why
 * not. */
static int write_record(const char *file)
{
    FILE *output = fopen(file, "wb");
    int reason = 0;

    if (output == NULL)
        return 0;
    if (fwrite(stored, sizeof stored, 1, output) != 1 || fflush(output) != 0 || fsync(fileno(output)) != 0)
        reason = errno;
    if (fclose(output) != 0 && reason == 0)
        reason = errno;
    if (reason != 0)
        unlink(file);
    errno = reason;
    return reason == 0;
}

/* Brings the names in a file's folder to the disk, and answers whether they are there, as far as can be known: there are
 * folders that cannot be read, and systems on which a folder is not synced. */
static int sync_folder(const char *file)
{
    char name[LONGEST_NAME];
    int folder, reason;

    snprintf(name, sizeof name, "%s", file);
    folder = open(dirname(name), O_RDONLY);
    reason = folder >= 0 && fsync(folder) == 0 ? 0 : errno;
    if (folder >= 0)
        close(folder);
    errno = reason;
    return reason == 0 || reason == EACCES || reason == EBADF || reason == EINVAL || reason == ENOTSUP;
}

/* Says what could not be done with a file, and answers that the record is not saved. */
static int not_saved(const char *what, const char *file)
{
    fprintf(stderr, "modbus_unit: %s %s: %s; the write is not answered\n", file, what, strerror(errno));
    return 0;
}

/* Saves the record in its file. It is written whole beside it and then takes its name: whatever fails, the old one or the
 * new one is there, and never a part. Answers whether the new one is, having said why not. */
static int save(const char *file)
{
    char beside[LONGEST_NAME + sizeof ".part"];

    snprintf(beside, sizeof beside, "%s.part", file);
    if (!write_record(beside))
        return not_saved("cannot be written", beside);
    if (rename(beside, file) != 0) {
        not_saved("cannot be replaced", file);
        unlink(beside);
        return 0;
    }
    return sync_folder(file) || not_saved("is new, but its folder cannot be synced", file);
}

/* The number that a decimal text stands for; the most there is if that is above it, or if the text is not decimal. */
static uint32_t number_of(const char *text, uint32_t most)
{
    uint64_t number = 0;

    if (*text == '\0' || text[strspn(text, "0123456789")] != '\0')
        return most;
    for (; *text != '\0' && number < most; text++)
        number = 10 * number + (uint64_t)(*text - '0');
    return number < most ? (uint32_t)number : most;
}

/* Makes the record. Answers the status to end with, having said why, or ENDED if there is nothing wrong. */
static int make_record(const struct settings *settings)
{
    uint8_t event;

    if (settings->file == NULL)
        make_bench_record();
    else if (!load(settings->file))
        return NO_RECORD;
    if (settings->address != NULL)
        stored[ADDRESS_PLACE] = (uint8_t)number_of(settings->address, UINT8_MAX);
    /* no pulses change nothing; but an address out of its range is found by either event */
    event = settings->keypad ? KHUYAPESH_KEYPAD_ON : KHUYAPESH_PULSES;
    if (khuyapesh_panel(event, 0, stored, sizeof stored) == KHUYAPESH_DONE)
        return ENDED;
    fprintf(stderr, "modbus_unit: the address %s is not 1 to 99\n", settings->address);
    return WRONG_USAGE;
}

/* ---- the line */

/* Sets a line to bytes with nothing in between: no echo, no flow control, no modem lines. */
static int set_raw(int line, const struct settings *settings)
{
    struct termios wanted, set;

    if (tcgetattr(line, &wanted) != 0)
        return 0;
    /* a byte whose parity is wrong is read as 0, and the CRC tells */
    wanted.c_iflag = settings->parity->flags & PARENB ? INPCK : 0;
    wanted.c_oflag = 0;
    wanted.c_lflag = 0;
    wanted.c_cflag = CS8 | CREAD | CLOCAL | settings->parity->flags;
    wanted.c_cc[VMIN] = 1;
    wanted.c_cc[VTIME] = 0;
    if (cfsetispeed(&wanted, settings->rate->speed) != 0 || cfsetospeed(&wanted, settings->rate->speed) != 0)
        return 0;
    /* whether tcsetattr is content does not tell what is set: with a part of it it may be or not */
    tcsetattr(line, TCSANOW, &wanted);
    return tcgetattr(line, &set) == 0 && cfgetospeed(&set) == settings->rate->speed && (set.c_cflag & CSIZE) == CS8 &&
           (set.c_lflag & (ICANON | ECHO)) == 0;
}

/* Notes the parity that a line really has. A pseudo terminal has none. */
static void note_parity(int line, struct settings *settings)
{
    struct termios set;

    if (tcgetattr(line, &set) == 0)
        settings->parity = parities + ((set.c_cflag & PARENB) == 0 ? NONE : set.c_cflag & PARODD ? ODD : EVEN);
}

/* Opens a serial line, without waiting for a carrier. Answers -1, having said why, if this is none. */
static int open_device(struct settings *settings)
{
    const char *device = settings->device;
    const struct parity *wanted = settings->parity;
    int line = open(device, O_RDWR | O_NOCTTY | O_NONBLOCK);

    if (line < 0) {
        fprintf(stderr, "modbus_unit: %s cannot be opened: %s\n", device, strerror(errno));
    } else if (!isatty(line)) {
        fprintf(stderr, "modbus_unit: %s is not a terminal device\n", device);
    } else if (tcgetpgrp(line) >= 0) {
        fprintf(stderr, "modbus_unit: %s is the terminal that you type at\n", device);
    } else if (!set_raw(line, settings)) {
        fprintf(stderr, "modbus_unit: %s cannot be set to %s baud and 8 data bits\n", device, settings->rate->name);
    } else {
        /* what came before is no part of a frame */
        tcflush(line, TCIOFLUSH);
        note_parity(line, settings);
        if (settings->parity != wanted)
            fprintf(stderr, "modbus_unit: %s does not take parity %s and has %s\n", device, wanted->name,
                    settings->parity->name);
        return line;
    }
    return -1;
}

/* Opens a pseudo terminal, and writes the name of its other end once a panel can use it. That end stays open here too, so
 * that panels may come and go. */
static int open_terminal(struct settings *settings)
{
    int line = posix_openpt(O_RDWR | O_NOCTTY), other_end;
    const char *name;

    if (line < 0 || grantpt(line) != 0 || unlockpt(line) != 0 || fcntl(line, F_SETFL, O_NONBLOCK) != 0)
        return -1;
    name = ptsname(line);
    if (name == NULL)
        return -1;
    other_end = open(name, O_RDWR | O_NOCTTY);
    if (other_end < 0 || !set_raw(other_end, settings))
        return -1;
    note_parity(other_end, settings);
    printf("%s\n", name);
    return fflush(stdout) == 0 ? line : -1;
}

static int open_line(struct settings *settings)
{
    int line;

    if (settings->device != NULL)
        return open_device(settings);
    line = open_terminal(settings);
    if (line < 0)
        perror("modbus_unit: no pseudo terminal could be opened");
    return line;
}

/* Reading or writing failed only for now. */
static int is_passing(void) { return errno == EINTR || errno == EAGAIN; }

/* Sends a reply. A line may have room for a part of it, and for the next when that has left; what has found none in
 * LONGEST_SENDING, because no panel reads, is lost as on a wire. */
static void transmit(int line, const uint8_t *reply, size_t length)
{
    int64_t end = milliseconds_after(now(), LONGEST_SENDING);
    struct pollfd polled = {line, POLLOUT, 0};

    while (length > 0) {
        ssize_t sent = write(line, reply, length);

        if (sent > 0) {
            reply += sent;
            length -= (size_t)sent;
        } else if (sent == 0 || !is_passing() || left_until(end) == 0) {
            return;
        } else {
            poll(&polled, 1, left_until(end));
        }
    }
}

/* Takes what has come in, and answers whether the line is still there. */
static int receive(int line)
{
    uint8_t bytes[256];
    ssize_t count = read(line, bytes, sizeof bytes);
    size_t room = sizeof request - held, taken;

    /* the end of a line is that it was hung up */
    if (count == 0)
        errno = EIO;
    if (count <= 0)
        return count < 0 && is_passing();
    last_came = now();
    taken = (size_t)count < room ? (size_t)count : room;
    memcpy(request + held, bytes, taken);
    held += taken;
    return 1;
}

/* ---- the log */

static void show_settings(const struct settings *settings)
{
    fprintf(stderr, "slave %u, %s baud, parity %s; a silence of %d ms ends a frame\n", stored[ADDRESS_PLACE],
            settings->rate->name, settings->parity->name, settings->silence);
}

static void show_bytes(const uint8_t *bytes, size_t length)
{
    size_t place;

    for (place = 0; place < length; place++)
        fprintf(stderr, "%s%02X", place > 0 ? " " : "", bytes[place]);
}

/* Shows what was held and what it got: a reply, or the silence with its name. */
static void show_exchange(const uint8_t *reply, uint32_t answer)
{
    static const char *const silences[] = {"", "", "short reply buffer", "the frame's length", "the CRC", "another slave",
                                           "a function over 127", "a read's length", "a write's length"};
    uint32_t number = khuyapesh_number(answer);

    if (held < sizeof request)
        show_bytes(request, held);
    else
        fprintf(stderr, "over %d bytes", KHUYAPESH_MODBUS_ROOM);
    if (!khuyapesh_is_modbus_refusal(answer)) {
        fprintf(stderr, " gets ");
        show_bytes(reply, answer);
        fprintf(stderr, "\n");
    } else if (khuyapesh_class(answer) == KHUYAPESH_MODBUS && number < sizeof silences / sizeof *silences) {
        fprintf(stderr, " gets no reply: M%lu, %s\n", (unsigned long)number, silences[number]);
    } else {
        fprintf(stderr, " gets no reply: K%lu\n", (unsigned long)number);
    }
}

/* ---- frames */

/* Answers the frame that a silence has ended. What a write has changed is saved before the panel hears that it is taken.
 * Answers whether it could be. */
static int serve(int line, const struct settings *settings)
{
    uint8_t before[sizeof stored], reply[KHUYAPESH_MODBUS_ROOM];
    uint32_t answer;

    memcpy(before, stored, sizeof stored);
    answer = khuyapesh_modbus(stored, sizeof stored, request, held, reply, sizeof reply);
    if (settings->file != NULL && memcmp(before, stored, sizeof stored) != 0 && !save(settings->file))
        return 0;
    if (!khuyapesh_is_modbus_refusal(answer))
        transmit(line, reply, answer);
    if (settings->log)
        show_exchange(reply, answer);
    held = 0;
    return 1;
}

/* Throws away what standard input has, and answers whether it has ended. */
static int has_ended(void)
{
    uint8_t bytes[256];
    ssize_t count = read(STDIN_FILENO, bytes, sizeof bytes);

    return count == 0 || (count < 0 && !is_passing());
}

/* Serves the line until it fails or, on a pseudo terminal, standard input ends. Answers the program's status.
 *
 * A frame ends when no byte has come for the silence, whatever standard input has meanwhile. That a frame with a pause of
 * over 1.5 characters in it should be thrown away is left out: when each byte came is not known here, and the CRC finds what
 * was cut or run together. */
static int run(int line, const struct settings *settings)
{
    /* poll passes over -1 */
    int input = settings->device == NULL ? STDIN_FILENO : -1;

    for (;;) {
        struct pollfd polled[] = {{line, POLLIN, 0}, {input, POLLIN, 0}};
        int64_t end = milliseconds_after(last_came, settings->silence);
        int ready = poll(polled, 2, held > 0 ? left_until(end) : -1);

        if (ready < 0 && errno == EINTR)
            continue;
        if (ready < 0 || (polled[0].revents != 0 && !receive(line))) {
            perror("modbus_unit: the line failed");
            return NO_LINE;
        }
        if (polled[0].revents == 0 && held > 0 && left_until(end) == 0 && !serve(line, settings))
            return NO_RECORD;
        if (polled[1].revents != 0 && has_ended())
            return ENDED;
    }
}

/* ---- the arguments */

/* The standard's silence of 3.5 characters, in milliseconds and rounded up. Above 19200 baud it is 1.75 ms at every rate. A
 * pseudo terminal or a converter on USB hands bytes over by a timing of its own: --silence can make it longer there. */
static int standard_silence(uint32_t baud)
{
    return baud > 19200 ? 2 : (int)((3500 * 11 + baud - 1) / baud);
}

static int set_rate(const char *name, struct settings *settings)
{
    size_t row;

    for (row = 0; row < sizeof rates / sizeof *rates; row++)
        if (strcmp(name, rates[row].name) == 0) {
            settings->rate = rates + row;
            return 1;
        }
    return 0;
}

static int set_parity(const char *name, struct settings *settings)
{
    size_t row;

    for (row = 0; row < sizeof parities / sizeof *parities; row++)
        if (strcmp(name, parities[row].name) == 0) {
            settings->parity = parities + row;
            return 1;
        }
    return 0;
}

static int set_silence(const char *text, struct settings *settings)
{
    settings->silence = (int)number_of(text, LONGEST_SILENCE + 1);
    return 1 <= settings->silence && settings->silence <= LONGEST_SILENCE;
}

/* Whether it is one is for the library to say, when it is in the record. */
static int set_address(const char *text, struct settings *settings)
{
    settings->address = text;
    return 1;
}

static int set_file(const char *name, struct settings *settings)
{
    settings->file = name;
    return strlen(name) < LONGEST_NAME;
}

/* The options that have a value, and what takes it and answers whether it is one. */
static const struct {
    const char *name;
    int (*set)(const char *value, struct settings *settings);
} options[] = {{"--baud", set_rate},
               {"--parity", set_parity},
               {"--silence", set_silence},
               {"--address", set_address},
               {"--record", set_file}};

/* Takes an option that has a value. Answers how many words that are, or 0, having said what is wrong. */
static int take_option_with_value(const char *name, const char *value, struct settings *settings)
{
    size_t row = 0;

    while (row < sizeof options / sizeof *options && strcmp(name, options[row].name) != 0)
        row++;
    if (row == sizeof options / sizeof *options)
        fprintf(stderr, "modbus_unit: there is no option %s\n", name);
    else if (value == NULL)
        fprintf(stderr, "modbus_unit: %s needs a value\n", name);
    else if (!options[row].set(value, settings))
        fprintf(stderr, "modbus_unit: %s is no value of %s\n", value, name);
    else
        return 2;
    return 0;
}

/* Takes an option, with its value where it has one. Answers how many words that are, or 0, having said what is wrong. */
static int take_option(const char *name, const char *value, struct settings *settings)
{
    if (strcmp(name, "--keypad") == 0) {
        settings->keypad = 1;
        return 1;
    }
    if (strcmp(name, "--log") == 0) {
        settings->log = 1;
        return 1;
    }
    return take_option_with_value(name, value, settings);
}

/* Takes a word that is no option. Answers that this is one word, or 0, having said what is wrong. */
static int take_device(const char *name, struct settings *settings)
{
    if (settings->device != NULL) {
        fprintf(stderr, "modbus_unit: there is more than one device\n");
        return 0;
    }
    settings->device = name;
    return 1;
}

/* Takes the words. Answers whether they are right, having said what is not. */
static int take_words(char **words, struct settings *settings)
{
    while (*words != NULL) {
        int taken = words[0][0] == '-' ? take_option(words[0], words[1], settings) : take_device(words[0], settings);

        if (taken == 0)
            return 0;
        words += taken;
    }
    if (settings->silence == 0)
        settings->silence = standard_silence(settings->rate->baud);
    return 1;
}

int main(int count, char **words)
{
    struct settings settings = {NULL, NULL, NULL, NULL, NULL, 0, 0, 0};
    int line, status;

    if (count == 2 && (strcmp(words[1], "-h") == 0 || strcmp(words[1], "--help") == 0)) {
        fputs(usage, stdout);
        return ENDED;
    }
    set_rate("19200", &settings);
    set_parity("even", &settings);
    if (count < 1 || !take_words(words + 1, &settings)) {
        fputs(usage, stderr);
        return WRONG_USAGE;
    }
    status = make_record(&settings);
    if (status != ENDED)
        return status;
    line = open_line(&settings);
    if (line < 0)
        return NO_LINE;
    if (settings.log)
        show_settings(&settings);
    return run(line, &settings);
}
