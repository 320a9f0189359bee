/* A run of nodes that goes on from window to window, each of which is judged by itself, and windows with a mistake.
**
**     windows [OPERATIONS OF A NODE [OF A WINDOW]]
*/
#include <stdlib.h>

#include "expect.h"

enum { NODES = 4, LINES = 4, SLOTS = 2, CAME = NODES * SLOTS, SENT = CAME + SCI_TURN_ROOM };

static sci_node node[NODES];
static sci_logs logs = SCI_INIT;
static sci_packet way[NODES][CAME]; /* what has come to each node, and what it keeps */
static size_t count[NODES];
static uint32_t issued[NODES];
static unsigned long performed;
static uint64_t state = 88172645463325252u;

static uint64_t drawn(void) {
    state ^= state << 13;
    state ^= state >> 7;
    return state ^= state << 17;
}

/* A turn of a node with what has come. What it performs is logged. */
static void turn(int n) {
    sci_packet sent[SENT];
    uint8_t taken[CAME];
    size_t used = 0, kept = 0;
    sci_entry done;
    sci_want want = { SCI_WANT_NOTHING, 0, 0, 0 };
    EXPECT(sci_node_turn(&node[n], way[n], count[n], taken, CAME, sent, SENT, &used, &want), SCI_OK);
    for (size_t i = 0; i < count[n]; i++) {
        if (!taken[i]) {
            way[n][kept++] = way[n][i];
        }
    }
    count[n] = kept;
    for (size_t i = 0; i < used; i++) {
        way[sent[i].target][count[sent[i].target]++] = sent[i];
    }
    if (want.kind == SCI_WANT_PERFORM) {
        EXPECT(sci_node_perform(&node[n], want.line, &done), SCI_OK);
        EXPECT(sci_logs_push(&logs, &done), SCI_OK);
        performed++;
    }
}

/* A node gives up each line that it may give up now. Gives whether it has none. */
static int leaves(int n) {
    static const uint8_t asks[] = { SCI_PURGE, SCI_CLEAR, SCI_WBACK, SCI_ROLL };
    uint32_t rests = 0;
    for (uint8_t line = 0; line < LINES; line++) {
        for (size_t i = 0; i < sizeof asks; i++) {
            uint8_t bytes[SCI_PACKET_BYTES];
            sci_packet packet;
            size_t length;
            if (sci_node_ask(&node[n], line, asks[i], bytes, &length) == SCI_OK) {
                EXPECT(sci_packet_decode(bytes, length, &packet, &length), SCI_OK);
                way[packet.target][count[packet.target]++] = packet;
            }
        }
    }
    EXPECT(sci_node_is_at_rest(&node[n], &rests), SCI_OK);
    return rests;
}

/* Each node issues and performs this many operations, and then all come to rest. */
static void window(uint32_t operations) {
    const unsigned long end = performed + (unsigned long)NODES * operations;
    memset(issued, 0, sizeof issued);
    while (performed < end && !failed) {
        for (int n = 0; n < NODES; n++) {
            const uint64_t r = drawn();
            const sci_op op = { (uint8_t)(r % 7), (uint8_t)(r >> 8 & 3), (uint8_t)(r >> 16 & 7), 0, r >> 24 & 3, r >> 32 & 7 };
            uint32_t serial;
            if (issued[n] < operations && sci_node_issue(&node[n], &op, &serial) == SCI_OK) {
                issued[n]++;
            }
            turn(n);
        }
    }
    for (int resting = 0; resting < NODES && !failed;) {
        resting = 0;
        for (int n = 0; n < NODES; n++) {
            turn(n);
            resting += leaves(n) && count[n] == 0;
        }
    }
}

/* A window is judged from its first contents to its last ones, and the next one begins there. */
static void judge(uint32_t operations) {
    sci_verdict verdict = { SCI_LAST_DIFFERS, 0, 0, 0, 0 };
    sci_stamped contents;
    uint32_t kind = SCI_UNLAWFUL;
    for (uint8_t line = 0; line < LINES; line++) {
        EXPECT(sci_node_home(&node[line % NODES], line, &contents), SCI_OK);
        EXPECT(sci_logs_set_last(&logs, line, &contents), SCI_OK);
    }
    EXPECT(sci_logs_audit(&logs, &verdict), SCI_OK);
    CHECK(verdict.kind == SCI_LAWFUL);
    EXPECT(sci_logs_order_kind(&logs, &kind), SCI_OK);
    CHECK(kind == SCI_ORDER);
    EXPECT(sci_logs_go_on(&logs), SCI_OK);
    for (int n = 0; n < NODES; n++) {
        EXPECT(sci_node_start_log(&node[n], operations), SCI_OK);
    }
}

static void run(uint32_t operations, uint32_t in_a_window) {
    EXPECT(sci_logs_open(&logs, NODES, LINES), SCI_OK);
    for (uint8_t n = 0; n < NODES; n++) {
        EXPECT(sci_node_open(&node[n], n, NODES, LINES, SLOTS, in_a_window), SCI_OK);
    }
    for (uint32_t left = operations; left > 0 && !failed;) {
        const uint32_t now = left < in_a_window ? left : in_a_window;
        window(now);
        judge(in_a_window);
        left -= now;
    }
    CHECK(performed == (unsigned long)NODES * operations);
    for (uint8_t n = 0; n < NODES; n++) {
        EXPECT(sci_node_close(&node[n]), SCI_OK);
    }
    EXPECT(sci_logs_close(&logs), SCI_OK);
}

/* What an audit says of two entries after first contents of this version, with this word, that end in last contents. */
static uint32_t found(uint64_t version, uint64_t word, const sci_entry *load, const sci_entry *add, sci_stamped last) {
    const sci_stamped first = { version, { 0, 0, 0, word, 9, 0, 0, 0 } };
    sci_logs window = SCI_INIT;
    sci_verdict verdict = { 7, 7, 7, 7, 7 }, cut_off = { 7, 7, 7, 7, 7 };
    sci_entry order[2];
    uint32_t kind = 7;
    size_t used = 7;
    EXPECT(sci_logs_open(&window, 2, 1), SCI_OK);
    EXPECT(sci_logs_set_first(&window, 0, &first), SCI_OK);
    EXPECT(sci_logs_push(&window, add), SCI_OK);
    EXPECT(sci_logs_push(&window, load), SCI_OK);
    EXPECT(sci_logs_set_last(&window, 0, &last), SCI_OK);
    EXPECT(sci_logs_audit(&window, &verdict), SCI_OK);
    /* the same without last contents, but for them */
    EXPECT(sci_logs_audit_cut_off(&window, &cut_off), SCI_OK);
    if (verdict.kind == SCI_LAST_DIFFERS) {
        CHECK(cut_off.kind == SCI_LAWFUL && cut_off.has_entry == 0);
    } else {
        CHECK(memcmp(&cut_off, &verdict, sizeof verdict) == 0);
    }
    EXPECT(sci_logs_order(&window, &kind, order, 2, &used), SCI_OK);
    CHECK(kind == (verdict.kind == SCI_LAWFUL ? SCI_ORDER : SCI_UNLAWFUL));
    if (kind == SCI_ORDER) {
        CHECK(used == 2 && order[0].op.act == SCI_LOAD && order[1].op.act == SCI_FETCH_ADD && order[1].version == add->version);
    }
    EXPECT(sci_logs_close(&window), SCI_OK);
    return verdict.kind;
}

/* A window whose line begins with 42 at version 5: a load of it by node 0, and an addition of 1 by node 1. */
static void mistakes(void) {
    const sci_entry load = { 0, 1, 0, 0, { SCI_LOAD, 0, 3, 0, 0, 0 }, 42, 5 };
    const sci_entry add = { 1, 1, 0, 0, { SCI_FETCH_ADD, 0, 3, 0, 0, 1 }, 42, 6 };
    const sci_stamped last = { 6, { 0, 0, 0, 43, 9, 0, 0, 0 } };
    sci_entry other;
    sci_stamped end = last;
    CHECK(found(5, 42, &load, &add, last) == SCI_LAWFUL);
    /* the window before had another end */
    CHECK(found(5, 41, &load, &add, last) == SCI_WRONG_REPLY);
    CHECK(found(4, 42, &load, &add, last) == SCI_VERSION_MISSING);
    CHECK(found(6, 42, &load, &add, last) == SCI_VERSION_MISSING);
    CHECK(found(0, 42, &load, &add, last) == SCI_VERSION_MISSING);
    /* a load of a version of the window before, and an addition that makes one of those */
    other = load;
    other.version = 4;
    CHECK(found(5, 42, &other, &add, last) == SCI_VERSION_MISSING);
    other = add;
    other.version = 5;
    CHECK(found(5, 42, &load, &other, last) == SCI_VERSION_MISSING);
    other.version = 7;
    CHECK(found(5, 42, &load, &other, last) == SCI_VERSION_MISSING);
    /* words that are others */
    other = load;
    other.word = 0;
    CHECK(found(5, 42, &other, &add, last) == SCI_WRONG_REPLY);
    other = add;
    other.word = 43;
    CHECK(found(5, 42, &load, &other, last) == SCI_WRONG_REPLY);
    end.version = 5;
    CHECK(found(5, 42, &load, &add, end) == SCI_LAST_DIFFERS);
    end = last;
    end.words[4] = 0;
    CHECK(found(5, 42, &load, &add, end) == SCI_LAST_DIFFERS);
    /* the greatest first version */
    other = load;
    other.version = UINT64_C(1) << 63;
    end = last;
    end.version = other.version + 1;
    sci_entry top = add;
    top.version = end.version;
    CHECK(found(other.version, 42, &other, &top, end) == SCI_LAWFUL);
}

/* A fault on a line is found behind lines whose last contents differ. */
static void cut_off(void) {
    const sci_entry stores[] = { { 0, 0, 0, 0, { SCI_STORE, 0, 3, 0, 0, 42 }, 0, 1 }, { 0, 0, 0, 1, { SCI_STORE, 2, 3, 0, 0, 42 }, 0, 1 } };
    sci_entry load = { 1, 1, 0, 0, { SCI_LOAD, 2, 3, 0, 0, 0 }, 42, 1 };
    sci_logs window = SCI_INIT;
    sci_verdict verdict = { 7, 7, 7, 7, 7 };
    EXPECT(sci_logs_open(&window, 2, 3), SCI_OK);
    EXPECT(sci_logs_push(&window, &stores[0]), SCI_OK);
    EXPECT(sci_logs_push(&window, &stores[1]), SCI_OK);
    EXPECT(sci_logs_push(&window, &load), SCI_OK);
    EXPECT(sci_logs_audit_cut_off(&window, &verdict), SCI_OK);
    CHECK(verdict.kind == SCI_LAWFUL);
    load.serial = 1;
    load.word = 41;
    EXPECT(sci_logs_push(&window, &load), SCI_OK);
    EXPECT(sci_logs_audit(&window, &verdict), SCI_OK);
    CHECK(verdict.kind == SCI_LAST_DIFFERS && verdict.line == 0);
    EXPECT(sci_logs_audit_cut_off(&window, &verdict), SCI_OK);
    CHECK(verdict.kind == SCI_WRONG_REPLY && verdict.line == 2 && verdict.has_entry == 1 && verdict.node == 1 && verdict.serial == 1);
    EXPECT(sci_logs_close(&window), SCI_OK);
}

/* Node 0 is given a request of node 1 about a line, and its answer is dropped. */
static void give(sci_node *to, uint16_t command, uint8_t line, const sci_stamped *contents) {
    sci_packet packet = { 0, command, 1, 0, line, SCI_NO_NODE, contents != NULL, 0, 0, { 0 } };
    uint8_t bytes[SCI_PACKET_BYTES];
    size_t length;
    if (contents != NULL) {
        packet.version = contents->version;
        memcpy(packet.words, contents->words, sizeof packet.words);
    }
    EXPECT(sci_packet_encode(&packet, bytes, &length), SCI_OK);
    EXPECT(sci_node_serve(to, bytes, length), SCI_OK);
    EXPECT(sci_node_start_log(to, 3), SCI_NOT_ENABLED);
    EXPECT(sci_node_take_answer(to, bytes, &length), SCI_OK);
}

/* A node that begins again knows of its homes what it knew, in each of their states, and its serials begin with 0. */
static void started(void) {
    enum { HOMES = 4 };
    const sci_stamped back = { 9, { 1, 2, 3, 4, 5, 6, 7, 8 } };
    sci_node home = SCI_INIT, other = SCI_INIT;
    sci_home before[HOMES], after[HOMES];
    uint32_t serial = 7, rests = 7;
    memset(before, 0, sizeof before);
    memset(after, 0, sizeof after);
    EXPECT(sci_node_open(&home, 0, 2, 2 * HOMES, 2, 16), SCI_OK);
    give(&home, SCI_CMD_MREAD, 0, NULL);
    give(&home, SCI_CMD_FREAD, 2, NULL);
    give(&home, SCI_CMD_MREAD, 4, NULL);
    give(&home, SCI_CMD_WBACK, 4, &back);
    for (uint8_t i = 0; i < HOMES; i++) {
        EXPECT(sci_node_home_state(&home, (uint8_t)(2 * i), &before[i]), SCI_OK);
    }
    CHECK(before[0].state == SCI_GONE && before[1].state == SCI_FRESH && before[2].state == SCI_HOME && before[2].contents.version == 9);
    EXPECT(sci_node_start_log(&home, 0), SCI_RANGE);
    EXPECT(sci_node_start_log(&home, SCI_MAX_OPERATIONS + 1), SCI_RANGE);
    EXPECT(sci_node_clone(&home, &other), SCI_OK);
    EXPECT(sci_node_issue(&other, &store, &serial), SCI_OK);
    EXPECT(sci_node_start_log(&other, 3), SCI_NOT_ENABLED);
    EXPECT(sci_node_close(&other), SCI_OK);
    EXPECT(sci_node_start_log(&home, 3), SCI_OK);
    for (uint8_t i = 0; i < HOMES; i++) {
        EXPECT(sci_node_home_state(&home, (uint8_t)(2 * i), &after[i]), SCI_OK);
    }
    CHECK(memcmp(before, after, sizeof before) == 0);
    EXPECT(sci_node_is_at_rest(&home, &rests), SCI_OK);
    CHECK(rests == 1);
    for (uint8_t line = 0; line < 4; line++) {
        sci_op op = store;
        op.line = line;
        EXPECT(sci_node_issue(&home, &op, &serial), line < 3 ? SCI_OK : SCI_FULL);
        CHECK(serial == (line < 3 ? line : 2));
    }
    EXPECT(sci_node_close(&home), SCI_OK);
}

int main(int words, char **arguments) {
    const uint32_t operations = words > 1 ? (uint32_t)strtoul(arguments[1], NULL, 10) : 3000;
    const uint32_t in_a_window = words > 2 ? (uint32_t)strtoul(arguments[2], NULL, 10) : words > 1 ? SCI_MAX_OPERATIONS : 1000;
    mistakes();
    cut_off();
    started();
    run(operations, in_a_window);
    if (words > 1) {
        printf("%lu operations in windows of %u a node\n", performed, (unsigned)in_a_window);
    }
    return failed;
}
