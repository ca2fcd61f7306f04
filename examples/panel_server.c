/*
 * A search for a dryer panel to read and to enter values into, over Modbus TCP on this machine (127.0.0.1). libmodbus listens, accepts and
 * receives; busdekker_panel answers each request; this program carries the bytes between the two. It decides nothing about registers and
 * exceptions.
 *
 *   panel_server PORT METHOD FIRST SECOND TOLERANCE [SHARE]    holds a search of this opening
 *   panel_server PORT                                          holds no search: every request gets exception 04
 *
 * With PORT 0 the system chooses one; the first line printed says which. Panels are served one after the other, since a search has one writer. The
 * program ends when it is told to (Ctrl-C, or SIGTERM), after 30 seconds without a panel, and after 100 connections or 10,000 requests, and then
 * prints the report of its search. What a person can put right is said on standard error, and the exit status is then 1.
 *
 * What reaches busdekker_panel. modbus_receive of libmodbus 3.1.6 does not look at the length field of a frame. It reads as many bytes of a request
 * as the function wants: 5 for functions 0 to 6, 6 for 15 and 16 with as many as the sixth says, 7 for 22, 10 for 23 with as many as the tenth
 * says, and 1 for every other function. This program then takes the rest that the length field counts, so that longer requests, up to the 253
 * bytes of the protocol, come through whole, and the next frame begins where it should. A request that is shorter, an empty one included, cannot
 * come through: libmodbus waits for its missing bytes, or takes the next frame's for them. The connection is then closed without an answer, and so
 * it is after a frame of another protocol and one longer than 260 bytes. The panel may connect again; the search stays as it was.
 *
 * The reply's header is the request's with another length. modbus_send_raw_request is no call for replies: its transaction number is 0.
 */
#define _XOPEN_SOURCE 700

#include <errno.h>
#include <inttypes.h>
#include <netinet/in.h>
#include <signal.h>
#include <stdio.h>
#include <stdlib.h>
#include <string.h>
#include <sys/select.h>
#include <sys/socket.h>
#include <sys/time.h>
#include <unistd.h>

#include <modbus.h>

#include "busdekker.h"
#include "refusals.h"

/* What it waits for and takes at most. A frame comes in pieces, each within a second of the one before. */
enum { SILENCE_SECONDS = 30, PIECE_SECONDS = 1, MOST_CONNECTIONS = 100, MOST_REQUESTS = 10000 };

/* A frame: a header of seven bytes, then the request. The header is the transaction, the protocol and the length, two bytes each, and the unit. The
 * length counts what stands after it. */
enum { PROTOCOL_AT = 2, LENGTH_AT = 4, UNIT_AT = 6, HEADER = 7, LONGEST_FRAME = MODBUS_TCP_MAX_ADU_LENGTH };

static volatile sig_atomic_t told_to_end = 0;

static void tell_to_end(int signal) {
    (void)signal;
    told_to_end = 1;
}

/* From here on Ctrl-C and SIGTERM are heard in wait_for alone. Returns 0 where that fails. */
static int hear_signals(void) {
    struct sigaction action = {.sa_handler = tell_to_end};
    sigset_t heard;
    sigemptyset(&heard);
    sigaddset(&heard, SIGINT);
    sigaddset(&heard, SIGTERM);
    return sigprocmask(SIG_BLOCK, &heard, NULL) == 0 && sigaction(SIGINT, &action, NULL) == 0 && sigaction(SIGTERM, &action, NULL) == 0;
}

/* Waits until a panel, or a byte of it, is there. Returns 0 after SILENCE_SECONDS without, and when told to end. */
static int wait_for(int socket) {
    struct timespec silence = {SILENCE_SECONDS, 0};
    fd_set sockets;
    sigset_t every_signal_heard;
    FD_ZERO(&sockets);
    FD_SET(socket, &sockets);
    sigemptyset(&every_signal_heard);
    return !told_to_end && pselect(socket + 1, &sockets, NULL, NULL, &silence, &every_signal_heard) == 1;
}

/* No call on this socket, to take or to send, lasts longer than PIECE_SECONDS. Returns 0 where that fails. */
static int bound_calls(int socket) {
    struct timeval piece = {PIECE_SECONDS, 0};
    return setsockopt(socket, SOL_SOCKET, SO_RCVTIMEO, &piece, sizeof piece) == 0 &&
           setsockopt(socket, SOL_SOCKET, SO_SNDTIMEO, &piece, sizeof piece) == 0;
}

static int word_at(const uint8_t *frame, int at) {
    return frame[at] << 8 | frame[at + 1];
}

/* Why libmodbus received no frame. */
static const char *why_none(int number) {
    switch (number) {
    case ECONNRESET:
        return "the panel hung up";
    case ETIMEDOUT:
        return "a frame broke off, or is shorter than its function wants";
    case EMBBADDATA:
        return "a frame is longer than 260 bytes";
    default:
        return modbus_strerror(number);
    }
}

/* Takes the next frame whole. Returns the length of its request, or 0 where the connection cannot go on, and puts the reason in *why. */
static size_t take_frame(modbus_t *panel, uint8_t *frame, const char **why) {
    int socket = modbus_get_socket(panel);
    if (!wait_for(socket)) {
        *why = told_to_end ? "told to end" : "the panel was silent";
        return 0;
    }
    int taken = modbus_receive(panel, frame);
    if (taken == -1) {
        *why = why_none(errno);
        return 0;
    }
    int whole = UNIT_AT + word_at(frame, LENGTH_AT);
    if (word_at(frame, PROTOCOL_AT) != 0) {
        *why = "a frame is not of the Modbus protocol";
    } else if (whole < taken) {
        *why = "a frame is shorter than its function wants";
    } else if (whole > LONGEST_FRAME) {
        *why = "a frame is longer than 260 bytes";
    } else if (whole > taken && recv(socket, frame + taken, (size_t)(whole - taken), MSG_WAITALL) != whole - taken) {
        *why = "a frame broke off";
    } else {
        return (size_t)(whole - HEADER);
    }
    return 0;
}

/* Answers the request of a frame from the search. Returns 0 where the reply cannot be sent, and puts the reason in *why. */
static int answer(modbus_t *panel, struct busdekker_search *search, const uint8_t *frame, size_t length, const char **why) {
    uint8_t reply[HEADER + BUSDEKKER_LONGEST_REPLY];
    struct busdekker_written written = busdekker_panel(search, frame + HEADER, length, reply + HEADER, BUSDEKKER_LONGEST_REPLY);
    if (written.kind != BUSDEKKER_WRITTEN) {
        *why = refusal_in_words(written.number);
        return 0;
    }
    size_t whole = HEADER + written.length;
    memcpy(reply, frame, HEADER);
    reply[LENGTH_AT] = 0;
    reply[LENGTH_AT + 1] = (uint8_t)(whole - UNIT_AT);
    if (send(modbus_get_socket(panel), reply, whole, MSG_NOSIGNAL) != (ssize_t)whole) {
        *why = "the panel took no reply";
        return 0;
    }
    return 1;
}

/* Answers a panel until it hangs up or cannot be served further, and says why. At most `most` requests are answered; returns how many were. */
static int serve_panel(modbus_t *panel, struct busdekker_search *search, int most) {
    uint8_t frame[LONGEST_FRAME];
    const char *why = "no more requests are taken";
    int answered = 0;
    while (answered < most) {
        size_t length = take_frame(panel, frame, &why);
        if (length == 0 || !answer(panel, search, frame, length, &why)) {
            break;
        }
        answered++;
    }
    printf("requests answered: %d; %s\n", answered, why);
    return answered;
}

/* Accepts the next panel. Returns 0 where it is lost. */
static int accept_panel(modbus_t *panel, int listening) {
    if (modbus_tcp_accept(panel, &listening) == -1) {
        return 0;
    }
    if (!bound_calls(modbus_get_socket(panel))) {
        modbus_close(panel);
        return 0;
    }
    return 1;
}

/* Serves one panel after the other, as long as this program is to run, and says why it ends. */
static void serve(modbus_t *panel, int listening, struct busdekker_search *search) {
    int requests = 0, connections = 0;
    while (connections < MOST_CONNECTIONS && requests < MOST_REQUESTS && wait_for(listening)) {
        connections++;
        printf("connection %d: ", connections);
        if (accept_panel(panel, listening)) {
            requests += serve_panel(panel, search, MOST_REQUESTS - requests);
            modbus_close(panel);
        } else {
            printf("lost: %s\n", strerror(errno));
        }
        fflush(stdout);
    }
    if (told_to_end) {
        printf("told to end\n");
    } else if (connections < MOST_CONNECTIONS && requests < MOST_REQUESTS) {
        printf("no panel came for %d seconds\n", SILENCE_SECONDS);
    } else {
        printf("%d connections, %d requests: no more are taken\n", connections, requests);
    }
}

static void print_degrees(const char *before, uint32_t setting, const char *after) {
    printf("%s%" PRIu32 ".%02" PRIu32 "%s", before, setting / 100, setting % 100, after);
}

static void print_report(struct busdekker_report report) {
    if (report.kind == BUSDEKKER_NEXT) {
        printf("after %" PRIu32 " trials", report.taken);
        print_degrees(": dry the next at ", report.point, " degrees\n");
    } else if (report.kind == BUSDEKKER_STOP) {
        printf("stop after %" PRIu32 " trials", report.taken);
        print_degrees(": the target lies from ", report.lower, "");
        print_degrees(" to ", report.upper, " degrees");
        print_degrees("; run the dryer at ", report.better, " degrees\n");
    } else {
        printf("no search is held\n");
    }
}

/* Listens on the port, and says which it is. Returns the socket, or -1 after saying why there is none. */
static int listen_on(modbus_t *panel, int port) {
    struct sockaddr_in address;
    socklen_t size = sizeof address;
    int listening = modbus_tcp_listen(panel, MOST_CONNECTIONS);
    if (listening == -1) {
        fprintf(stderr, "panel_server: cannot listen on 127.0.0.1:%d: %s; take another port, or 0 for one that is free\n", port, strerror(errno));
        return -1;
    }
    if (!bound_calls(listening) || getsockname(listening, (struct sockaddr *)&address, &size) == -1) {
        fprintf(stderr, "panel_server: cannot ask which port it is: %s\n", strerror(errno));
        close(listening);
        return -1;
    }
    printf("listening on 127.0.0.1:%d\n", ntohs(address.sin_port));
    if (fflush(stdout) != 0) {
        fprintf(stderr, "panel_server: standard output cannot be written: %s\n", strerror(errno));
        close(listening);
        return -1;
    }
    return listening;
}

/* Serves the search on the port, and prints its report at the end. Returns 0 where that could not begin. */
static int run(int port, struct busdekker_search *search) {
    modbus_t *panel = modbus_new_tcp("127.0.0.1", port);
    if (panel == NULL || !hear_signals()) {
        fprintf(stderr, "panel_server: cannot begin: %s\n", strerror(errno));
        modbus_free(panel);
        return 0;
    }
    modbus_set_indication_timeout(panel, PIECE_SECONDS, 0);
    modbus_set_byte_timeout(panel, PIECE_SECONDS, 0);
    int listening = listen_on(panel, port);
    if (listening != -1) {
        serve(panel, listening, search);
        close(listening);
        print_report(busdekker_ask(search));
    }
    modbus_free(panel);
    return listening != -1;
}

/* Reads the arguments as whole numbers into the first of `numbers`. Returns 0 after saying which is none. */
static int read_numbers(int argc, char **argv, int32_t *numbers) {
    for (int k = 1; k < argc; k++) {
        char *end;
        errno = 0;
        long number = strtol(argv[k], &end, 10);
        if (end == argv[k] || *end != '\0' || errno != 0 || number < INT32_MIN || number > INT32_MAX) {
            fprintf(stderr, "panel_server: '%s' is not a whole number of at most 32 bits\n", argv[k]);
            return 0;
        }
        numbers[k - 1] = (int32_t)number;
    }
    return 1;
}

int main(int argc, char **argv) {
    static struct busdekker_search search;
    int32_t numbers[6] = {0};
    if (busdekker_version() != BUSDEKKER_VERSION) {
        fprintf(stderr, "panel_server: header and archive are of different versions\n");
        return 1;
    }
    if (argc != 2 && argc != 6 && argc != 7) {
        fprintf(stderr, "usage: panel_server PORT METHOD FIRST SECOND TOLERANCE [SHARE], or panel_server PORT to hold no search\n");
        return 1;
    }
    if (!read_numbers(argc, argv, numbers)) {
        return 1;
    }
    if (numbers[0] < 0 || numbers[0] > UINT16_MAX) {
        fprintf(stderr, "panel_server: the port is not from 0 to 65535\n");
        return 1;
    }
    if (argc > 2) {
        struct busdekker_opening opening = {numbers[1], numbers[2], numbers[3], numbers[4], numbers[5]};
        struct busdekker_report report = busdekker_open(&search, opening);
        if (report.kind == BUSDEKKER_REFUSED) {
            fprintf(stderr, "panel_server: the opening is refused: %s\n", refusal_in_words(report.number));
            return 1;
        }
    }
    return run(numbers[0], &search) && fflush(stdout) == 0 && !ferror(stdout) ? 0 : 1;
}
