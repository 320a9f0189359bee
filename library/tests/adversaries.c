/* Nodes take turns in orders that adversaries choose. While an operation is pending, one is performed before many windows have
** passed, in each of which each node takes a turn. And no operation waits for many windows, while others go on.
**
**     adversaries [TURNS [SEED]]
*/
#include <stdlib.h>

#include "expect.h"

/* The most windows without a perform that a run may have, and the most that an operation may wait. The greatest numbers that were seen
** are far below. */
enum { MOST_WINDOWS = 1000, MOST_WAIT = 10000, RUN_TURNS = 20000, NODES = SCI_MAX_NODES, CAME = NODES * 8, SENT = CAME + SCI_TURN_ROOM };

/* In which order nodes take turns: one after another; any node; one or two nodes 61 times as often as others; one node as seldom as
** it may; each node many times in a row. */
enum order { CIRCLE, ANY, ONE_FAST, TWO_FAST, ONE_STARVED, BURSTS, ORDERS };

typedef struct {
    int nodes, lines, slots, most_pending;
    enum order order;
    int odd, other, place, burst;
} run_shape;

static sci_node node[NODES];
static sci_packet way[NODES][CAME];
static size_t count[NODES];
static int pending[NODES];
static unsigned long issued_at[NODES][SCI_MAX_LINES];
static unsigned long turns, performs, longest, passed, longest_wait;
static uint64_t state;

static uint64_t drawn(uint64_t below) {
    state ^= state << 13;
    state ^= state >> 7;
    state ^= state << 17;
    return (state >> 11) % below;
}

/* The node that takes the next turn. */
static int next_node(run_shape *shape) {
    const int nodes = shape->nodes, step = shape->place++;
    switch (shape->order) {
    case CIRCLE:
        return step % nodes;
    case ONE_FAST:
        return step % 62 ? shape->odd : (int)drawn((uint64_t)nodes);
    case TWO_FAST:
        return step % 62 ? (step / 62 % 2 ? shape->odd : shape->other) : step / 62 % nodes;
    case ONE_STARVED: {
        const int among = (int)drawn((uint64_t)nodes);
        return step % (64 * nodes) ? (among == shape->odd ? (among + 1) % nodes : among) : shape->odd;
    }
    case BURSTS:
        if (shape->burst-- <= 0) {
            shape->burst = (int)drawn(130);
            shape->other = (shape->other + 1) % nodes;
        }
        return shape->other;
    default:
        return (int)drawn((uint64_t)nodes);
    }
}

/* A node issues an operation now and then, if it may. */
static void issue_one(const run_shape *shape, int n) {
    static const uint8_t acts[] = { SCI_LOAD, SCI_LOAD, SCI_STORE, SCI_FETCH_ADD };
    const sci_op op = { acts[drawn(4)], (uint8_t)drawn((uint64_t)shape->lines), (uint8_t)drawn(8), 0, drawn(4), drawn(4) };
    uint32_t serial;
    if (pending[n] < shape->most_pending && drawn(2) && sci_node_issue(&node[n], &op, &serial) == SCI_OK) {
        pending[n]++;
        issued_at[n][op.line] = passed;
    }
}

/* A whole turn of a node. Gives whether it performed an operation. */
static int turn(int n) {
    sci_packet sent[SENT];
    uint8_t taken[CAME];
    size_t used = 0, kept = 0;
    sci_entry done;
    sci_want want = { SCI_WANT_NOTHING, 0, 0, 0 };
    EXPECT(sci_node_turn(&node[n], way[n], count[n], taken, CAME, sent, SENT, &used, &want), SCI_OK);
    for (size_t i = 0; i < count[n]; i++) {
        if (!taken[i]) {
            way[n][kept++] = way[n][i];
        }
    }
    count[n] = kept;
    for (size_t i = 0; i < used; i++) {
        way[sent[i].target][count[sent[i].target]++] = sent[i];
    }
    turns++;
    if (want.kind != SCI_WANT_PERFORM) {
        return 0;
    }
    EXPECT(sci_node_perform(&node[n], want.line, &done), SCI_OK);
    const unsigned long waited = passed - issued_at[n][want.line];
    longest_wait = waited > longest_wait ? waited : longest_wait;
    CHECK(waited < MOST_WAIT);
    pending[n]--;
    performs++;
    return 1;
}

static int is_pending(int nodes) {
    int some = 0;
    for (int n = 0; n < nodes; n++) {
        some |= pending[n];
    }
    return some;
}

/* Turns in one order, until this many were taken and nothing is pending any more. */
static void run(run_shape *shape) {
    const unsigned all = (1u << shape->nodes) - 1;
    unsigned long windows = 0, end = turns + RUN_TURNS;
    unsigned came = 0, came_all = 0;
    memset(count, 0, sizeof count);
    memset(pending, 0, sizeof pending);
    for (int n = 0; n < shape->nodes; n++) {
        EXPECT(sci_node_open(&node[n], (uint8_t)n, (uint8_t)shape->nodes, (uint8_t)shape->lines, (uint8_t)shape->slots, SCI_MAX_OPERATIONS), SCI_OK);
    }
    while (!failed && (turns < end || is_pending(shape->nodes))) {
        const int n = next_node(shape);
        if (turns < end) {
            issue_one(shape, n);
        }
        const int performed = turn(n);
        came_all |= 1u << n;
        if (came_all == all) {
            came_all = 0;
            passed++;
        }
        if (performed || !is_pending(shape->nodes)) {
            windows = 0;
            came = 0;
            continue;
        }
        came |= 1u << n;
        if (came == all) {
            came = 0;
            windows++;
            longest = windows > longest ? windows : longest;
            CHECK(windows < MOST_WINDOWS);
        }
    }
    for (int n = 0; n < shape->nodes; n++) {
        EXPECT(sci_node_close(&node[n]), SCI_OK);
    }
}

int main(int words, char **arguments) {
    static const int lines[] = { 1, 2, 4, 8, 32 };
    const unsigned long most = words > 1 ? strtoul(arguments[1], NULL, 10) : 400000;
    state = 88172645463325252u + (words > 2 ? strtoull(arguments[2], NULL, 10) : 0);
    while (turns < most && !failed) {
        run_shape shape = { 0 };
        shape.nodes = 2 + (int)drawn(drawn(3) ? 4 : NODES - 1);
        shape.lines = lines[drawn(5)];
        shape.slots = 1 + (int)drawn(8);
        shape.most_pending = 1 + (int)drawn(6);
        shape.order = (enum order)drawn(ORDERS);
        shape.odd = (int)drawn((uint64_t)shape.nodes);
        shape.other = (shape.odd + 1) % shape.nodes;
        run(&shape);
        if (failed) {
            printf("%d nodes, %d lines, %d slots, at most %d pending, order %d\n", shape.nodes, shape.lines, shape.slots, shape.most_pending, shape.order);
        }
    }
    if (words > 1) {
        printf("%lu turns, %lu performs, at most %lu windows without one, and at most %lu until an operation's own\n", turns, performs, longest, longest_wait);
    }
    return failed;
}
