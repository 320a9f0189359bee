/* Four nodes, each of which takes one call a turn. A packet that a turn sends comes to its target before its next turn.
**
**     cc -o turns turns.c $(pkg-config --cflags --libs lichenknit) && ./turns
*/
#include <stdio.h>
#include <string.h>

#include "lichenknit.h"

enum { NODES = 4, LINES = 2, SLOTS = 2, OPERATIONS = 1000, CAME = NODES * SLOTS, SENT = CAME + SCI_TURN_ROOM };

static sci_node node[NODES];
static sci_packet way[NODES][CAME]; /* what has come to each node, and what it keeps */
static size_t count[NODES];
static long packets;
static int failed;

static void expect(const char *what, sci_status status) {
    if (status != SCI_OK) {
        printf("%s: %s\n", what, sci_status_text(status));
        failed = 1;
    }
}

/* A turn of node n, with what has come. Gives how many operations it performed. */
static int turn(int n) {
    sci_packet sent[SENT];
    uint8_t taken[CAME];
    size_t used = 0, kept = 0;
    sci_entry entry;
    sci_want want = { SCI_WANT_NOTHING, 0, 0, 0 };
    int performed = 0;
    expect("turn", sci_node_turn(&node[n], way[n], count[n], taken, CAME, sent, SENT, &used, &want));
    for (size_t i = 0; i < count[n]; i++) {
        if (!taken[i]) {
            way[n][kept++] = way[n][i];
        }
    }
    count[n] = kept;
    for (size_t i = 0; i < used; i++) {
        way[sent[i].target][count[sent[i].target]++] = sent[i];
        packets++;
    }
    if (want.kind == SCI_WANT_PERFORM) {
        expect("perform", sci_node_perform(&node[n], want.line, &entry));
        performed++;
    }
    return performed;
}

int main(void) {
    long left = (long)NODES * OPERATIONS, now = 0;
    int issued[NODES] = { 0 };
    for (int n = 0; n < NODES; n++) {
        expect("open", sci_node_open(&node[n], (uint8_t)n, NODES, LINES, SLOTS, OPERATIONS));
    }
    for (; left > 0 && !failed && now < 1000000; now++) {
        for (int n = 0; n < NODES; n++) {
            const int i = issued[n];
            const sci_op op = { i % 3 == 0 ? SCI_LOAD : SCI_FETCH_ADD, (uint8_t)((i + n) % LINES), (uint8_t)(i % 8), 0, 0, 1 };
            uint32_t serial;
            if (i < OPERATIONS && sci_node_issue(&node[n], &op, &serial) == SCI_OK) {
                issued[n]++;
            }
            left -= turn(n);
        }
    }
    printf("%ld operations left after %ld turns of each node and %ld packets\n", left, now, packets);
    for (int n = 0; n < NODES; n++) {
        expect("close", sci_node_close(&node[n]));
    }
    return failed || left > 0;
}
