/*
 * The smallest host in C: sets an agent up with quiet hours, lets a client open a session and create a participant, lists its objects, asks when
 * writing is open next, and prints what happened.
 *
 *   cc -Wall -Wextra -Werror -I../../include example.c ../../target/staticlib/libcabi.a -o example
 *
 * A real host takes datagrams from a socket and its bridge is DDS; here both are a few lines.
 */
#include <stdio.h>

/* At most 4 clients: so many have a part in the stores of held messages and of fragments, 144.25 KiB each. */
#define XRCE_MAX_CLIENTS 4
#include "xrce_agent.h"

/* What the host owns: the record, the tables (294 KiB) with the stores, and an output. Static, so that nothing large stands on the stack. */
static struct xrce_agent agent;
static struct xrce_tables tables;
static uint8_t out[512];

/* Replies stand one behind the other: each has 8 bytes and its payload, whose length is at bytes 6 and 7, low byte first. */
static void print_replies(void) {
    size_t at = 0;
    while (at < agent.wrote) {
        size_t length = 8u + out[at + 6] + 256u * out[at + 7];
        printf("reply");
        for (size_t i = 0; i < length; i++) printf(" %02x", out[at + i]);
        printf("\n");
        at += length;
    }
}

/* Makes the calls that a datagram leads to, each before anything else. This bridge knows participants alone. */
static int make_calls(const uint8_t *datagram, size_t length) {
    uint32_t next_handle = 41;
    while (agent.call != XRCE_NO_CALL) {
        enum xrce_input told = XRCE_FAILED;
        if (agent.call == XRCE_CREATE_PARTICIPANT) {
            printf("call create_participant, domain %u: handle %u\n", (unsigned)agent.handle, (unsigned)next_handle);
            told = XRCE_CREATED;
        }
        /* The datagram is lent again: submessages may follow the one that led to the call. There is no sample. */
        uint64_t answer = xrce_answer(&agent, &tables, out, sizeof out, datagram, length, told, next_handle++, datagram, 0);
        if (xrce_refused(answer) != 0) return printf("answer refused: %u\n", xrce_refused(answer)), 1;
        print_replies();
    }
    return 0;
}

/* All datagrams here come on weekday 0 at minute 450, half past seven. */
static int receive(const char *what, const uint8_t *datagram, size_t length, uint64_t time) {
    printf("%s\n", what);
    uint64_t answer = xrce_incoming(&agent, &tables, out, sizeof out, datagram, length, time, 0, 450);
    if (xrce_refused(answer) != 0) {
        /* A refused datagram changed nothing and gets no reply; the byte comes with 2, 3 and 4. */
        printf("refused %u, byte %u\n", xrce_refused(answer), xrce_byte(answer));
        return 0;
    }
    print_replies();
    return make_calls(datagram, length);
}

int main(void) {
    static const uint8_t open[] = {0, 0, 0, 0, 0x00, 0, 5, 0, 1, 2, 3, 4, 0};
    static const uint8_t create[] = {1, 0, 0, 0, 0x01, 0, 5, 0, 7, 0, 1, 0, 0}; /* object 7, a Participant, domain 0 */
    static const uint8_t unknown[] = {1, 0, 0, 0, 0x03, 0, 0, 0};
    static const xrce_window windows[] = {{0, 480, 720}, {0, 840, 1320}}; /* weekday 0, eight to noon and two to ten; the others are closed */
    uint8_t ended[255];
    uint16_t numbers[32];

    /* A client that is silent for longer than 1,000 ms expires. */
    if (xrce_refused(xrce_setup(&agent, &tables, windows, 2, XRCE_MAX_CLIENTS, 1000)) != 0) return 1;
    printf("set up; %u bytes of tables\n", (unsigned)xrce_number(xrce_need(XRCE_MAX_CLIENTS)));
    if (receive("CREATE_CLIENT at 0 ms", open, sizeof open, 0)) return 1;
    if (receive("CREATE of participant 7 at 5 ms", create, sizeof create, 5)) return 1;
    if (receive("a submessage that there isn't at 6 ms", unknown, sizeof unknown, 6)) return 1;

    /* The objects of session 1, in the order in which they can be deleted. */
    uint64_t listed = xrce_list(&tables, numbers, 32, 1);
    if (xrce_refused(listed) != 0) return 1;
    printf("session 1 has %u object, number %u\n", (unsigned)xrce_number(listed), numbers[0]);

    /* In a closed minute WRITE_DATA to a known writer is answered ERR_INCOMPATIBLE; this one is the next that is open. */
    uint64_t next = xrce_first_open(&tables, 0, 450);
    if (xrce_refused(next) != 0 || !xrce_ever_open(next)) return 1;
    printf("writing is open next on weekday %u at minute %u\n", xrce_open_day(next), xrce_open_minute(next));

    uint64_t swept = xrce_sweep(&agent, &tables, ended, sizeof ended, 1006);
    printf("sweep at 1006 ms: %u ended, the first is %u\n", (unsigned)xrce_number(swept), ended[0]);
    return xrce_refused(swept) != 0;
}
