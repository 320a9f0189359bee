/* A test bench that stops at the cycle. Two caches of one line write through to a memory, and an invalidation is lost in cycle 6. Each
** operation is told to a scoreboard when it takes effect.
**
**     cc -o scoreboard scoreboard.c $(pkg-config --cflags --libs lichenknit) && ./scoreboard
*/
#include <stdio.h>
#include <stdlib.h>

#include "lichenknit.h"

/* What a cache has of the line, if it has it. */
static sci_stamped copies[2], memory;
static int is_valid[2];
static uint32_t serials[2];

static void must(const char *call, sci_status status) {
    if (status != SCI_OK) {
        fprintf(stderr, "%s: %s\n", call, sci_status_text(status));
        exit(1);
    }
}

/* A node adds 1 to word 0, and the other node's copy is invalidated, if that isn't lost. */
static sci_entry add_one(uint8_t node, int is_lost) {
    const sci_op add = { SCI_FETCH_ADD, 0, 0, 0, 0, 1 };
    sci_stamped *copy = &copies[node];
    if (!is_valid[node]) {
        *copy = memory;
        is_valid[node] = 1;
    }
    const sci_entry entry = { node, 1, 0, serials[node]++, add, copy->words[0], copy->version + 1 };
    copy->words[0]++;
    copy->version++;
    memory = *copy;
    is_valid[1 - node] = is_valid[1 - node] && is_lost;
    return entry;
}

int main(void) {
    sci_scoreboard board = SCI_INIT;
    sci_verdict verdict = { SCI_LAWFUL, 0, 0, 0, 0 };
    sci_stamped line;
    int cycle = 0;
    must("open", sci_scoreboard_open(&board, 2, 1));
    while (cycle < 100 && verdict.kind == SCI_LAWFUL) {
        cycle++;
        const sci_entry entry = add_one(cycle % 2, cycle == 6);
        must("tell", sci_scoreboard_tell(&board, &entry, &verdict));
    }
    must("contents", sci_scoreboard_contents(&board, 0, &line));
    printf("cycle %d: %s line %u node %u serial %u\n", cycle, sci_verdict_name(verdict.kind), verdict.line, verdict.node, verdict.serial);
    printf("the line has %u at version %u\n", (unsigned)line.words[0], (unsigned)line.version);
    return sci_scoreboard_close(&board) != SCI_OK;
}
