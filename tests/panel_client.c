/*
 * A panel at examples/panel_server.c, by libmodbus's own client calls, and by raw requests where no call makes them. It reads the registers, all
 * that can be read at once and each alone, enters values, and provokes every exception.
 *
 *   panel_client PORT search    the server holds a fresh search 1,6000,12000,25: the README's first example is entered, to the stop
 *   panel_client PORT none      the server holds no search
 *
 * It prints what it read and entered. The first thing that is not as expected is said on standard error, and the exit status is then 1.
 */
#include <errno.h>
#include <stdarg.h>
#include <stdint.h>
#include <stdio.h>
#include <stdlib.h>
#include <string.h>

#include <modbus.h>

#include "busdekker.h"

/* The unit that is asked for. A reply carries the same. */
enum { UNIT = 17 };

/* The register that a value is written to. */
enum { ENTRY = 6 };

/* The exceptions' numbers. */
enum { OTHER_FUNCTION = 1, OTHER_ADDRESS = 2, WRONG_VALUE = 3, NO_SEARCH = 4 };

static modbus_t *panel;

/* A moment of the search: its registers, and the value that the crew then brings. The last is the stop, where none is wanted. */
struct moment {
    uint16_t registers[BUSDEKKER_REGISTERS];
    int16_t value;
};

static const struct moment moments[] = {
    {{1, 6000, 0, 0, 0, 0, 0}, 705}, {{1, 12000, 0, 0, 0, 1, 0}, -142}, {{1, 10995, 0, 0, 0, 2, 0}, -96},
    {{1, 8898, 0, 0, 0, 3, 0}, 80},  {{1, 9851, 0, 0, 0, 4, 0}, -17},   {{1, 9684, 0, 0, 0, 5, 0}, -2},
    {{1, 9659, 0, 0, 0, 6, 0}, 0},   {{2, 0, 9659, 9684, 9659, 7, 0}, 0},
};

enum { MOMENTS = sizeof moments / sizeof moments[0] };

/* A request that no search takes, and the exception that it gets. Bytes past those given are 0. */
struct mistake {
    const char *words;
    uint8_t exception;
    int length;
    uint8_t request[12];
};

static const struct mistake mistakes[] = {
    {"a read of no register", WRONG_VALUE, 5, {3, 0, 0, 0, 0}},
    {"a read of 126 registers", WRONG_VALUE, 5, {3, 0, 0, 0, 126}},
    {"a read of 65,535 registers", WRONG_VALUE, 5, {3, 0, 0, 255, 255}},
    {"a read of 256 registers", WRONG_VALUE, 5, {3, 0, 0, 1, 0}},
    {"a read of no register at 7: the quantity is looked at before the address", WRONG_VALUE, 5, {3, 0, 7, 0, 0}},
    {"a read of 126 registers at 65,535", WRONG_VALUE, 5, {3, 255, 255, 0, 126}},
    {"a read with a byte more", WRONG_VALUE, 6, {3, 0, 0, 0, 1, 0}},
    {"a read elsewhere with a byte more: the length is looked at before the address", WRONG_VALUE, 6, {3, 0, 7, 0, 1, 0}},
    {"a read of 253 bytes", WRONG_VALUE, 253, {3, 0, 0, 0, 1}},
    {"a read of 8 registers", OTHER_ADDRESS, 5, {3, 0, 0, 0, 8}},
    {"a read of 125 registers", OTHER_ADDRESS, 5, {3, 0, 0, 0, 125}},
    {"a read of 7 registers at 1", OTHER_ADDRESS, 5, {3, 0, 1, 0, 7}},
    {"a read of register 7", OTHER_ADDRESS, 5, {3, 0, 7, 0, 1}},
    {"a read of register 256", OTHER_ADDRESS, 5, {3, 1, 0, 0, 1}},
    {"a read of register 65,535", OTHER_ADDRESS, 5, {3, 255, 255, 0, 1}},
    {"a read of 7 registers at 65,535, which is no register 6", OTHER_ADDRESS, 5, {3, 255, 255, 0, 7}},
    {"a write to register 0", OTHER_ADDRESS, 5, {6, 0, 0, 0, 1}},
    {"a write to register 5", OTHER_ADDRESS, 5, {6, 0, 5, 0, 1}},
    {"a write to register 7", OTHER_ADDRESS, 5, {6, 0, 7, 0, 1}},
    {"a write to register 262", OTHER_ADDRESS, 5, {6, 1, 6, 0, 1}},
    {"a write of 10,001 to register 7: the address is looked at before the value", OTHER_ADDRESS, 5, {6, 0, 7, 0x27, 0x11}},
    {"a write with a byte more", WRONG_VALUE, 6, {6, 0, 6, 0, 1, 0}},
    {"a write elsewhere with a byte more: the length is looked at before the address", WRONG_VALUE, 6, {6, 0, 5, 0, 1, 0}},
    {"a write of 10,001", WRONG_VALUE, 5, {6, 0, 6, 0x27, 0x11}},
    {"a write of -10,001", WRONG_VALUE, 5, {6, 0, 6, 0xD8, 0xEF}},
    {"a write of 32,767", WRONG_VALUE, 5, {6, 0, 6, 0x7F, 0xFF}},
    {"a write of -32,768", WRONG_VALUE, 5, {6, 0, 6, 0x80, 0x00}},
    {"function 8, a panel's question whether the line is sound", OTHER_FUNCTION, 5, {8, 0, 0, 0x12, 0x34}},
    {"function 43, a panel's question who it is", OTHER_FUNCTION, 4, {43, 14, 1, 0}},
    {"function 16, a write of one register", OTHER_FUNCTION, 8, {16, 0, 6, 0, 1, 2, 0, 1}},
    {"function 23, a read and a write", OTHER_FUNCTION, 12, {23, 0, 0, 0, 7, 0, 6, 0, 1, 2, 0, 1}},
    {"function 131, an exception for a request", OTHER_FUNCTION, 2, {131, 2}},
};

enum { MISTAKES = sizeof mistakes / sizeof mistakes[0] };

/* Says what went wrong, and ends. */
static void fail(const char *words, ...) {
    va_list more;
    va_start(more, words);
    fputs("panel_client: ", stderr);
    vfprintf(stderr, words, more);
    fputc('\n', stderr);
    va_end(more);
    exit(1);
}

/* Registers `first` and following, `many` of them, are the expected ones. */
static void check_read(const uint16_t *expected, int first, int many) {
    uint16_t registers[BUSDEKKER_REGISTERS];
    if (modbus_read_registers(panel, first, many, registers) != many) {
        fail("%d registers from %d cannot be read: %s", many, first, modbus_strerror(errno));
    }
    for (int k = 0; k < many; k++) {
        if (registers[k] != expected[first + k]) {
            fail("register %d, of %d from %d, is %d where %d is expected", first + k, many, first, registers[k], expected[first + k]);
        }
    }
}

/* Every row of registers that begins with this one and can be read at once has the expected ones. */
static void check_rows_from(const uint16_t *expected, int first) {
    for (int many = 1; first + many <= BUSDEKKER_REGISTERS; many++) {
        check_read(expected, first, many);
    }
}

/* Every row of registers that can be read at once has the expected ones, each register alone and all seven among them. */
static void check_rows(const uint16_t *expected) {
    for (int first = 0; first < BUSDEKKER_REGISTERS; first++) {
        check_rows_from(expected, first);
    }
}

static void print_registers(const uint16_t *registers) {
    printf("registers");
    for (int k = 0; k < BUSDEKKER_REGISTERS; k++) {
        printf(" %d", registers[k]);
    }
    printf("\n");
}

/* A raw request gets this exception, in a frame that is the reply to it. */
static void check_exception(const struct mistake *mistake, uint8_t exception) {
    uint8_t request[1 + MODBUS_MAX_PDU_LENGTH] = {UNIT};
    uint8_t reply[MODBUS_TCP_MAX_ADU_LENGTH];
    const uint8_t expected[] = {0, 0, 0, 0, 0, 3, UNIT, mistake->request[0] | 0x80, exception};
    memcpy(request + 1, mistake->request, sizeof mistake->request);
    if (modbus_send_raw_request(panel, request, 1 + mistake->length) == -1) {
        fail("%s cannot be sent: %s", mistake->words, modbus_strerror(errno));
    }
    int length = modbus_receive_confirmation(panel, reply);
    if (length == -1) {
        fail("%s gets no reply: %s", mistake->words, modbus_strerror(errno));
    }
    if (length != sizeof expected || memcmp(reply, expected, sizeof expected) != 0) {
        fail("%s gets %d bytes, function %02x and then %02x, where exception %02d is expected", mistake->words, length, reply[7], reply[8], exception);
    }
}

/* Every mistake gets its exception, or the one that every request gets, and alters no register. */
static void check_mistakes(const uint16_t *expected, uint8_t always) {
    for (int k = 0; k < MISTAKES; k++) {
        check_exception(&mistakes[k], always != 0 ? always : mistakes[k].exception);
        if (expected != NULL) {
            check_read(expected, 0, BUSDEKKER_REGISTERS);
        }
    }
    printf("%d mistakes, each with its exception\n", MISTAKES);
}

/* A call of libmodbus has failed by this exception. */
static void check_call(const char *call, int returned, int exception) {
    if (returned != -1) {
        fail("%s is answered, where exception %02d is expected", call, exception);
    }
    if (errno != MODBUS_ENOBASE + exception) {
        fail("%s: %s, where exception %02d is expected", call, modbus_strerror(errno), exception);
    }
    printf("%s: %s\n", call, modbus_strerror(errno));
}

/* The calls for other functions get one exception, those for other registers another, and a value out of range a third. */
static void check_calls(int function, int address, int value) {
    uint8_t bits[MODBUS_MAX_READ_BITS] = {0};
    uint16_t registers[MODBUS_MAX_READ_REGISTERS] = {0};
    check_call("read coils", modbus_read_bits(panel, 0, 7, bits), function);
    check_call("read discrete inputs", modbus_read_input_bits(panel, 0, 7, bits), function);
    check_call("read input registers", modbus_read_input_registers(panel, 0, 7, registers), function);
    check_call("write a coil", modbus_write_bit(panel, 6, 1), function);
    check_call("write coils", modbus_write_bits(panel, 6, 1, bits), function);
    check_call("write registers", modbus_write_registers(panel, 6, 1, registers), function);
    check_call("report the unit", modbus_report_slave_id(panel, MODBUS_MAX_READ_BITS, bits), function);
    check_call("mask a register", modbus_mask_write_register(panel, 6, 0, 1), function);
    check_call("write and read registers", modbus_write_and_read_registers(panel, 6, 1, registers, 0, 7, registers), function);
    check_call("read register 7", modbus_read_registers(panel, 7, 1, registers), address);
    check_call("read 8 registers", modbus_read_registers(panel, 0, 8, registers), address);
    check_call("write register 1", modbus_write_register(panel, 1, 6000), address);
    check_call("write 10,001", modbus_write_register(panel, ENTRY, 10001), value);
    check_call("write -10,001", modbus_write_register(panel, ENTRY, 65536 - 10001), value);
}

/* Writes a value by a raw request. The reply is compared byte by byte with the frame that was sent, which it repeats. */
static void write_raw(int16_t value) {
    const uint8_t high = (uint8_t)((uint16_t)value >> 8), low = (uint8_t)value;
    const uint8_t request[] = {UNIT, 6, 0, ENTRY, high, low};
    const uint8_t expected[] = {0, 0, 0, 0, 0, 6, UNIT, 6, 0, ENTRY, high, low};
    uint8_t reply[MODBUS_TCP_MAX_ADU_LENGTH];
    if (modbus_send_raw_request(panel, request, sizeof request) == -1) {
        fail("the value %d cannot be sent: %s", value, modbus_strerror(errno));
    }
    int length = modbus_receive_confirmation(panel, reply);
    if (length == -1) {
        fail("the value %d gets no reply: %s", value, modbus_strerror(errno));
    }
    if (length != sizeof expected || memcmp(reply, expected, sizeof expected) != 0) {
        fail("the value %d gets %d bytes, function %02x and then %02x, where the request is to be repeated", value, length, reply[7], reply[8]);
    }
}

/* Writes a value by libmodbus's call, which looks at the function and the length of the reply. */
static void write_by_call(int16_t value) {
    if (modbus_write_register(panel, ENTRY, (uint16_t)value) != 1) {
        fail("the value %d is not taken: %s", value, modbus_strerror(errno));
    }
}

/* The registers at a moment of the search, and the mistakes, which leave them. */
static void check_moment(const struct moment *moment) {
    print_registers(moment->registers);
    check_rows(moment->registers);
    check_mistakes(moment->registers, 0);
}

/* The README's first example, to the stop, each value for the point that register 1 shows. The second is first brought on the first one's side. */
static void check_search(void) {
    check_calls(OTHER_FUNCTION, OTHER_ADDRESS, WRONG_VALUE);
    for (int k = 0; k < MOMENTS - 1; k++) {
        check_moment(&moments[k]);
        if (k == 1) {
            check_call("write 1, on the first value's side", modbus_write_register(panel, ENTRY, 1), WRONG_VALUE);
        }
        if (k % 2 == 0) {
            write_by_call(moments[k].value);
        } else {
            write_raw(moments[k].value);
        }
        printf("value %d entered\n", moments[k].value);
    }
    check_moment(&moments[MOMENTS - 1]);
    check_call("write 0 after the stop", modbus_write_register(panel, ENTRY, 0), WRONG_VALUE);
    check_call("write -142 after the stop", modbus_write_register(panel, ENTRY, 65536 - 142), WRONG_VALUE);
    check_rows(moments[MOMENTS - 1].registers);
}

/* Where no search is held, every request gets exception 04: what would be right, and every mistake. */
static void check_none(void) {
    uint16_t registers[BUSDEKKER_REGISTERS];
    check_call("read 7 registers", modbus_read_registers(panel, 0, BUSDEKKER_REGISTERS, registers), NO_SEARCH);
    check_call("write 705", modbus_write_register(panel, ENTRY, 705), NO_SEARCH);
    check_calls(NO_SEARCH, NO_SEARCH, NO_SEARCH);
    check_mistakes(NULL, NO_SEARCH);
}

int main(int argc, char **argv) {
    if (argc != 3 || (strcmp(argv[2], "search") != 0 && strcmp(argv[2], "none") != 0)) {
        fprintf(stderr, "usage: panel_client PORT search|none\n");
        return 1;
    }
    panel = modbus_new_tcp("127.0.0.1", atoi(argv[1]));
    if (panel == NULL || modbus_set_slave(panel, UNIT) == -1 || modbus_set_response_timeout(panel, 10, 0) == -1 || modbus_connect(panel) == -1) {
        fail("cannot connect to 127.0.0.1:%s: %s", argv[1], modbus_strerror(errno));
    }
    if (strcmp(argv[2], "search") == 0) {
        check_search();
    } else {
        check_none();
    }
    modbus_close(panel);
    modbus_free(panel);
    return 0;
}
