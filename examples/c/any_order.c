/* Four nodes and a network that keeps no order: all packets under way lie in one bag, and any of them comes next. Then the same
** with a network that loses some packets. Nodes issue, perform and ask at random. At the end the logs are audited.
**
**     cc -o any_order any_order.c $(pkg-config --cflags --libs lichenknit) && ./any_order
*/
#include <stdio.h>
#include <stdlib.h>
#include <string.h>

#include "lichenknit.h"

/* A node has at most one packet about each of its lines under way, for no more lines than it has slots. So the bag never has
** more than NODES * SLOTS packets. */
enum { NODES = 4, LINES = 16, SLOTS = 8, OPERATIONS = 1000, ROOM = NODES * SLOTS };

typedef struct packet {
    uint8_t bytes[SCI_PACKET_BYTES];
    size_t length;
} packet;

static sci_node node[NODES];
static sci_logs logs;
static packet bag[ROOM];
static size_t in_bag;
static unsigned carried, overtaken, lost, performed;
static sci_stamped last[LINES];                   /* the contents of each line after its stores so far */
static uint64_t stored_at[LINES][SCI_LINE_WORDS]; /* the version of each word */

static uint64_t state = 1;

static unsigned drawn(unsigned below) {
    state ^= state << 13;
    state ^= state >> 7;
    state ^= state << 17;
    return (unsigned)((state >> 32) % below);
}

/* Ends the program if a call answered what it never answers. */
static void expect(const char *what, int holds) {
    if (!holds) {
        printf("%s: this never happens\n", what);
        exit(1);
    }
}

/* A packet's first two bytes are its target, the next two its command, and the next two its source. A request's command is
** below 0x0100. */
static int target_of(const packet *p) { return p->bytes[1]; }
static int is_request(const packet *p) { return p->bytes[2] == 0; }
static int is_same_way(const packet *p, const packet *q) {
    return p->bytes[1] == q->bytes[1] && p->bytes[5] == q->bytes[5] && is_request(p) == is_request(q);
}

/* The packets stay in the order in which they were made. */
static void send(const packet *p) {
    expect("a bag that is full", in_bag < ROOM);
    bag[in_bag++] = *p;
}

static void take_out(size_t place) {
    for (size_t i = 0; i < place; i++) {
        if (is_same_way(&bag[i], &bag[place])) {
            overtaken++;
            break;
        }
    }
    memmove(&bag[place], &bag[place + 1], (--in_bag - place) * sizeof(packet));
}

/* Any packet comes to its target. An answer is always accepted, and a request is served or refused unless an answer waits. */
static void deliver(size_t place) {
    const packet p = bag[place];
    sci_node *to = &node[target_of(&p)];
    const int request = is_request(&p);
    const sci_status status = !request ? sci_node_accept(to, p.bytes, p.length)
        : drawn(8) == 0 ? sci_node_refuse(to, p.bytes, p.length) : sci_node_serve(to, p.bytes, p.length);
    expect("a packet that can't be taken", status == SCI_OK || (request && status == SCI_NOT_ENABLED));
    if (status == SCI_OK) {
        take_out(place);
        carried++;
    }
}

static void note(const sci_entry *entry) {
    const uint8_t line = entry->op.line, word = entry->op.word;
    expect("logs that refuse an entry", sci_logs_push(&logs, entry) == SCI_OK);
    performed++;
    if (entry->op.act == SCI_STORE && entry->version > stored_at[line][word]) {
        stored_at[line][word] = entry->version;
        last[line].words[word] = entry->op.datum;
        last[line].version = entry->version > last[line].version ? entry->version : last[line].version;
    }
}

/* Node n issues an operation and asks something about its line, as far as it may. */
static void work(unsigned n) {
    const sci_op op = { (uint8_t)(drawn(2) ? SCI_STORE : SCI_LOAD), (uint8_t)drawn(LINES), (uint8_t)drawn(2), 0, 0, drawn(1000) };
    packet p = { { 0 }, 0 };
    uint32_t serial;
    (void)sci_node_issue(&node[n], &op, &serial);
    if (sci_node_ask(&node[n], op.line, (uint8_t)drawn(SCI_SETBACK + 1), p.bytes, &p.length) == SCI_OK) {
        send(&p);
    }
}

/* An answer that waits at node n goes into the bag. */
static void reply(unsigned n) {
    packet p = { { 0 }, 0 };
    if (sci_node_take_answer(&node[n], p.bytes, &p.length) == SCI_OK) {
        send(&p);
    }
}

/* The network gives some packet of the bag to its target, or loses it. */
static void carry(unsigned losses) {
    const size_t place = in_bag > 0 ? drawn((unsigned)in_bag) : 0;
    if (in_bag > 0 && lost < losses && drawn(200) == 0) {
        take_out(place);
        lost++;
    } else if (in_bag > 0) {
        deliver(place);
    }
}

static void step(unsigned n, unsigned losses) {
    sci_entry entry;
    switch (drawn(8)) {
    case 0:
        reply(n);
        break;
    case 1:
        carry(losses);
        break;
    default:
        work(n);
    }
    for (uint8_t line = 0; line < LINES; line++) {
        if (sci_node_perform(&node[n], line, &entry) == SCI_OK) {
            note(&entry);
        }
    }
}

static void run(const char *network, unsigned losses) {
    sci_verdict verdict;
    carried = overtaken = lost = performed = 0;
    in_bag = 0;
    memset(last, 0, sizeof last);
    memset(stored_at, 0, sizeof stored_at);
    expect("open", sci_logs_open(&logs, NODES, LINES) == SCI_OK);
    for (uint8_t n = 0; n < NODES; n++) {
        expect("open", sci_node_open(&node[n], n, NODES, LINES, SLOTS, OPERATIONS) == SCI_OK);
    }
    for (unsigned i = 0; i < 100000; i++) {
        step(drawn(NODES), losses);
    }
    for (uint8_t line = 0; line < LINES; line++) {
        expect("set_last", sci_logs_set_last(&logs, line, &last[line]) == SCI_OK);
    }
    expect("audit", sci_logs_audit(&logs, &verdict) == SCI_OK);
    printf("%s: %u operations, %u packets, %u of them before an earlier one, %u lost: %s\n", network, performed, carried, overtaken,
        lost, verdict.kind == SCI_LAWFUL ? "lawful" : "not lawful");
    for (uint8_t n = 0; n < NODES; n++) {
        expect("close", sci_node_close(&node[n]) == SCI_OK);
    }
    expect("close", sci_logs_close(&logs) == SCI_OK);
}

int main(void) {
    run("in any order", 0);
    run("with losses", 3);
    return 0;
}
