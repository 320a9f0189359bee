/* Two nodes and the wires between them. Node 1 stores a word of line 0, whose home is at node 0, and then node 0 loads it.
**
**     cc -o two_nodes two_nodes.c $(pkg-config --cflags --libs lichenknit) && ./two_nodes
*/
#include <stdio.h>

#include "lichenknit.h"

enum { NODES = 2 };

static sci_node node[NODES];

/* Says what a call answered, if that isn't SCI_OK. */
static int failed(const char *what, sci_status status) {
    if (status != SCI_OK) {
        printf("%s: %s\n", what, sci_status_text(status));
    }
    return status != SCI_OK;
}

/* Node n asks about a line. The request goes to its target, and the answer comes back. A packet's first two bytes are its
** target, the next two its command. */
static int round_trip(int n, uint8_t line, uint8_t ask) {
    uint8_t packet[SCI_PACKET_BYTES];
    size_t length = 0;
    if (failed("ask", sci_node_ask(&node[n], line, ask, packet, &length))) {
        return 1;
    }
    const int target = packet[1];
    printf("node %d asks node %d by %02x%02x\n", n, target, packet[2], packet[3]);
    if (failed("serve", sci_node_serve(&node[target], packet, length)) ||
        failed("take_answer", sci_node_take_answer(&node[target], packet, &length))) {
        return 1;
    }
    printf("node %d answers by %02x%02x, %zu bytes\n", target, packet[2], packet[3], length);
    return failed("accept", sci_node_accept(&node[n], packet, length));
}

/* Node n does an operation, after it has asked what it needs. */
static int operate(int n, sci_op op, const uint8_t *asks, int count) {
    uint32_t serial = 0;
    sci_entry entry;
    if (failed("issue", sci_node_issue(&node[n], &op, &serial))) {
        return 1;
    }
    for (int i = 0; i < count; i++) {
        if (round_trip(n, op.line, asks[i])) {
            return 1;
        }
    }
    if (failed("perform", sci_node_perform(&node[n], op.line, &entry))) {
        return 1;
    }
    if (entry.has_word) {
        printf("node %d loads %llu at version %llu\n", n, (unsigned long long)entry.word, (unsigned long long)entry.version);
    } else {
        printf("node %d stores %llu at version %llu\n", n, (unsigned long long)op.datum, (unsigned long long)entry.version);
    }
    return 0;
}

int main(void) {
    const sci_op store = { SCI_STORE, 0, 3, 0, 0, 42 }, load = { SCI_LOAD, 0, 3, 0, 0, 0 };
    const uint8_t to_write[] = { SCI_MREAD }, to_read[] = { SCI_FREAD, SCI_CREAD };
    int wrong = 0;
    for (uint8_t n = 0; n < NODES; n++) {
        wrong |= failed("open", sci_node_open(&node[n], n, NODES, 4, 2, 16));
    }
    wrong = wrong || operate(1, store, to_write, 1) || operate(0, load, to_read, 2);
    for (int n = 0; n < NODES; n++) {
        wrong |= failed("close", sci_node_close(&node[n]));
    }
    return wrong;
}
