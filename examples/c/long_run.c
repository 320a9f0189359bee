/* Four nodes whose logs nobody keeps. Each begins again with an empty log when it has issued as many operations as it may, while the others
** go on. Each operation is told to a scoreboard when it takes effect.
**
**     cc -o long_run long_run.c $(pkg-config --cflags --libs lichenknit) && ./long_run
*/
#include <stdio.h>
#include <stdlib.h>

#include "lichenknit.h"

enum { NODES = 4, LINES = 2, SLOTS = 2, LIMIT = 64, OPERATIONS = 50000, CAME = NODES * SLOTS, SENT = CAME + SCI_TURN_ROOM };

static sci_node node[NODES];
static sci_scoreboard board = SCI_INIT;
static sci_packet way[NODES][CAME];               /* what has come to each node, and what it keeps */
static size_t count[NODES];
static uint32_t issued[NODES], serials[NODES];   /* in all logs, and in those before this one */
static long performed, logs = NODES;

static void must(const char *call, sci_status status) {
    if (status != SCI_OK) {
        fprintf(stderr, "%s: %s\n", call, sci_status_text(status));
        exit(1);
    }
}

static void carry(const sci_packet *packet) {
    way[packet->target][count[packet->target]++] = *packet;
}

/* A turn of node n, with what has come. What it performs is told. */
static void turn(int n) {
    sci_packet sent[SENT];
    uint8_t taken[CAME];
    size_t used, kept = 0;
    sci_want want;
    must("turn", sci_node_turn(&node[n], way[n], count[n], taken, CAME, sent, SENT, &used, &want));
    for (size_t i = 0; i < count[n]; i++) {
        if (!taken[i]) {
            way[n][kept++] = way[n][i];
        }
    }
    count[n] = kept;
    for (size_t i = 0; i < used; i++) {
        carry(&sent[i]);
    }
    if (want.kind == SCI_WANT_PERFORM) {
        sci_entry entry;
        sci_verdict verdict;
        must("perform", sci_node_perform(&node[n], want.line, &entry));
        entry.serial += serials[n];
        must("tell", sci_scoreboard_tell(&board, &entry, &verdict));
        if (verdict.kind != SCI_LAWFUL) {
            fprintf(stderr, "%s\n", sci_verdict_name(verdict.kind));
            exit(1);
        }
        performed++;
    }
}

/* A node gives up what it has, and begins again with an empty log as soon as it has nothing. */
static void start_again(int n) {
    static const uint8_t asks[] = { SCI_PURGE, SCI_CLEAR, SCI_WBACK, SCI_ROLL };
    for (uint8_t line = 0; line < LINES; line++) {
        for (size_t i = 0; i < sizeof asks; i++) {
            uint8_t bytes[SCI_PACKET_BYTES];
            sci_packet packet;
            size_t length;
            if (sci_node_ask(&node[n], line, asks[i], bytes, &length) == SCI_OK) {
                must("decode", sci_packet_decode(bytes, length, &packet, &length));
                carry(&packet);
            }
        }
    }
    if (sci_node_start_log(&node[n], LIMIT) == SCI_OK) {
        serials[n] = issued[n];
        logs++;
    }
}

int main(void) {
    must("open", sci_scoreboard_open(&board, NODES, LINES));
    for (int n = 0; n < NODES; n++) {
        must("open", sci_node_open(&node[n], (uint8_t)n, NODES, LINES, SLOTS, LIMIT));
    }
    while (performed < (long)NODES * OPERATIONS) {
        for (int n = 0; n < NODES; n++) {
            const uint32_t i = issued[n];
            const sci_op op = { i % 3 == 0 ? SCI_LOAD : SCI_FETCH_ADD, (uint8_t)((i + (uint32_t)n) % LINES), (uint8_t)(i % 8), 0, 0, 1 };
            uint32_t serial;
            const sci_status status = i < OPERATIONS ? sci_node_issue(&node[n], &op, &serial) : SCI_NOT_ENABLED;
            if (status == SCI_OK) {
                issued[n]++;
            } else if (status == SCI_FULL) {
                start_again(n);
            }
            turn(n);
        }
    }
    printf("%ld lawful operations in %ld logs\n", performed, logs);
    for (int n = 0; n < NODES; n++) {
        must("close", sci_node_close(&node[n]));
    }
    return sci_scoreboard_close(&board) != SCI_OK;
}
