/* Four nodes in lock step: each packet takes three cycles. What a node does is its policy's to say, so that all operations end.
** The driver of a node is the function cycle.
**
**     cc -o lock_step lock_step.c $(pkg-config --cflags --libs lichenknit) && ./lock_step
*/
#include <stdio.h>
#include <string.h>

#include "lichenknit.h"

enum { NODES = 4, LINES = 2, SLOTS = 2, OPERATIONS = 1000, DELAY = 3, ROOM = NODES * SLOTS };

/* A packet on its way, and the cycle in which it comes. */
struct sent {
    uint8_t bytes[SCI_PACKET_BYTES];
    size_t length;
    long comes;
};

static sci_node node[NODES];
static struct sent way[NODES][ROOM]; /* to each node, oldest first */
static int count[NODES];
static long now, packets;
static int failed;

static void expect(const char *what, sci_status status) {
    if (status != SCI_OK) {
        printf("%s: %s\n", what, sci_status_text(status));
        failed = 1;
    }
}

/* A packet's first two bytes are its target. */
static void send(const uint8_t *bytes, size_t length) {
    struct sent *last = &way[bytes[1]][count[bytes[1]]++];
    memcpy(last->bytes, bytes, length);
    last->length = length;
    last->comes = now + DELAY;
    packets++;
}

/* Node n sends the answer that waits, if one does. */
static void answer(int n) {
    uint8_t bytes[SCI_PACKET_BYTES];
    size_t length;
    if (sci_node_take_answer(&node[n], bytes, &length) == SCI_OK) {
        send(bytes, length);
    }
}

/* The commands of requests are below 0x100. */
static int is_request(const struct sent *packet) { return packet->bytes[2] == 0; }

/* Node n takes a packet that has come, if its policy doesn't keep it for later. */
static int takes(int n, const struct sent *packet) {
    uint32_t decision = SCI_KEEP;
    if (!is_request(packet)) {
        expect("accept", sci_node_accept(&node[n], packet->bytes, packet->length));
        return 1;
    }
    expect("decide", sci_node_decide(&node[n], packet->bytes, packet->length, &decision));
    if (decision == SCI_TO_SERVE) {
        expect("serve", sci_node_serve(&node[n], packet->bytes, packet->length));
    } else if (decision == SCI_TO_REFUSE) {
        expect("refuse", sci_node_refuse(&node[n], packet->bytes, packet->length));
    }
    answer(n);
    return decision != SCI_KEEP;
}

/* Node n takes the requests, or the answers, that have come. */
static void take_all(int n, int requests) {
    for (int i = 0; i < count[n];) {
        if (way[n][i].comes <= now && is_request(&way[n][i]) == requests && takes(n, &way[n][i])) {
            memmove(&way[n][i], &way[n][i + 1], (size_t)(--count[n] - i) * sizeof way[n][i]);
        } else {
            i++;
        }
    }
}

/* What node n does in a cycle. Answers come first: a claim that was refused is made again at once, and a request that waits for its
** answer is looked at in between. Gives how many operations it performed. */
static int cycle(int n) {
    uint8_t bytes[SCI_PACKET_BYTES];
    size_t length;
    sci_entry entry;
    sci_want want;
    int performed = 0;
    expect("begin_turn", sci_node_begin_turn(&node[n]));
    take_all(n, 0);
    take_all(n, 1);
    while (sci_node_next(&node[n], &want) == SCI_OK && want.kind != SCI_WANT_NOTHING) {
        if (want.kind == SCI_WANT_PERFORM) {
            expect("perform", sci_node_perform(&node[n], want.line, &entry));
            performed++;
        } else {
            expect("ask", sci_node_ask(&node[n], want.line, want.ask, bytes, &length));
            send(bytes, length);
        }
    }
    return performed;
}

int main(void) {
    long left = (long)NODES * OPERATIONS;
    int issued[NODES] = { 0 };
    for (int n = 0; n < NODES; n++) {
        expect("open", sci_node_open(&node[n], (uint8_t)n, NODES, LINES, SLOTS, OPERATIONS));
    }
    for (now = 0; left > 0 && !failed && now < 1000000; now++) {
        for (int n = 0; n < NODES; n++) {
            const int i = issued[n];
            const sci_op op = { i % 3 == 0 ? SCI_LOAD : SCI_FETCH_ADD, (uint8_t)((i + n) % LINES), (uint8_t)(i % 8), 0, 0, 1 };
            uint32_t serial;
            if (i < OPERATIONS && sci_node_issue(&node[n], &op, &serial) == SCI_OK) {
                issued[n]++;
            }
            left -= cycle(n);
        }
    }
    printf("%ld operations left after %ld cycles and %ld packets\n", left, now, packets);
    for (int n = 0; n < NODES; n++) {
        expect("close", sci_node_close(&node[n]));
    }
    return failed || left > 0;
}
