/* libmodbus as the master on a line, for scripts/modbus_peers: libmodbus_master DEVICE BAUD. Each line of standard input is
 * a request, and a line with what came back is written for it:
 *
 *     SLAVE read START COUNT         function 03: the registers
 *     SLAVE number START             function 03: a pair as one number, by libmodbus's own rule
 *     SLAVE set START NUMBER         function 16: a pair, by the same
 *     SLAVE write START WORD..       function 16: these registers
 *     SLAVE one REGISTER WORD        function 06
 *     SLAVE coil PLACE VALUE         function 05
 *     SLAVE coils START COUNT        function 01
 *     SLAVE inputs START COUNT       function 04
 */
#include <errno.h>
#include <modbus.h>
#include <stdio.h>
#include <stdlib.h>
#include <string.h>

/* The most numbers of a request, and the most words that come back: coils may be more than registers. */
enum { MOST_NUMBERS = 16, MOST_WORDS = MODBUS_MAX_READ_BITS };

/* A request as it was read. */
struct request {
    char name[16];
    int slave, count;
    long numbers[MOST_NUMBERS];
};

static int read_request(char *line, struct request *request)
{
    int used;

    /* a number that is not given is 0 */
    memset(request, 0, sizeof *request);
    if (sscanf(line, "%d %15s%n", &request->slave, request->name, &used) != 2)
        return 0;
    line += used;
    while (request->count < MOST_NUMBERS && sscanf(line, "%ld%n", &request->numbers[request->count], &used) == 1) {
        line += used;
        request->count++;
    }
    return request->count > 0;
}

/* Reads coils, each as a word. Answers how many, or -1. */
static int read_coils(modbus_t *line, int start, int count, uint16_t *words)
{
    uint8_t coils[MOST_WORDS];
    int place, answer = modbus_read_bits(line, start, count, coils);

    for (place = 0; place < answer; place++)
        words[place] = coils[place];
    return answer;
}

/* Sends a request. Answers how many registers or coils came back, 0 for a write that was taken, or -1. */
static int carry_out(modbus_t *line, const struct request *request, uint16_t *words)
{
    const char *name = request->name;
    int start = (int)request->numbers[0], second = (int)request->numbers[1], place;

    if (strcmp(name, "read") == 0)
        return modbus_read_registers(line, start, second, words);
    if (strcmp(name, "number") == 0)
        return modbus_read_registers(line, start, 2, words);
    if (strcmp(name, "inputs") == 0)
        return modbus_read_input_registers(line, start, second, words);
    if (strcmp(name, "coils") == 0)
        return read_coils(line, start, second, words);
    if (strcmp(name, "coil") == 0)
        return modbus_write_bit(line, start, second) < 0 ? -1 : 0;
    if (strcmp(name, "one") == 0)
        return modbus_write_register(line, start, (uint16_t)second) < 0 ? -1 : 0;
    if (strcmp(name, "set") == 0) {
        MODBUS_SET_INT32_TO_INT16(words, 0, request->numbers[1]);
        return modbus_write_registers(line, start, 2, words) < 0 ? -1 : 0;
    }
    for (place = 1; place < request->count; place++)
        words[place - 1] = (uint16_t)request->numbers[place];
    return modbus_write_registers(line, start, request->count - 1, words) < 0 ? -1 : 0;
}

/* Writes what came back. */
static void show(const struct request *request, int answer, const uint16_t *words)
{
    int place;

    if (answer < 0 && errno > MODBUS_ENOBASE && errno < MODBUS_ENOBASE + MODBUS_EXCEPTION_MAX)
        printf("exception %d\n", errno - MODBUS_ENOBASE);
    else if (answer < 0 && errno == ETIMEDOUT)
        printf("no reply\n");
    else if (answer < 0)
        printf("failed: %s\n", modbus_strerror(errno));
    else if (answer == 0)
        printf("written\n");
    else if (strcmp(request->name, "number") == 0)
        printf("%ld\n", (long)MODBUS_GET_INT32_FROM_INT16(words, 0));
    else
        for (place = 0; place < answer; place++)
            printf("%u%c", words[place], place + 1 < answer ? ' ' : '\n');
}

int main(int count, char **arguments)
{
    modbus_t *line = count == 3 ? modbus_new_rtu(arguments[1], atoi(arguments[2]), 'N', 8, 2) : NULL;
    uint16_t words[MOST_WORDS];
    struct request request;
    char text[256];

    if (line == NULL || modbus_connect(line) != 0 || modbus_set_response_timeout(line, 1, 0) != 0) {
        fprintf(stderr, "libmodbus_master: no line: %s\n", modbus_strerror(errno));
        return 1;
    }
    while (fgets(text, sizeof text, stdin) != NULL) {
        if (!read_request(text, &request) || modbus_set_slave(line, request.slave) != 0) {
            fprintf(stderr, "libmodbus_master: no request: %s", text);
            return 1;
        }
        show(&request, carry_out(line, &request, words), words);
    }
    modbus_close(line);
    modbus_free(line);
    return 0;
}
