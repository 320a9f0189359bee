/* The events that a machine makes are written as a schedule, which is replayed then: `scimem replay` takes it, too.
**
**     cc -o record record.c $(pkg-config --cflags --libs lichenknit) && ./record
*/
#include <stdio.h>
#include <stdlib.h>

#include "lichenknit.h"

static void must(const char *call, sci_status status) {
    if (status != SCI_OK) {
        fprintf(stderr, "%s: %s\n", call, sci_status_text(status));
        exit(1);
    }
}

int main(void) {
    static const sci_event events[] = {
        { .kind = SCI_ISSUE, .node = 1, .op = { .act = SCI_STORE, .word = 3, .datum = 42 } },
        { .kind = SCI_ASK, .node = 1, .ask = SCI_MREAD },
        { .kind = SCI_SERVE, .from = 1, .node = 0 },
        { .kind = SCI_REPLY, .node = 0 },
        { .kind = SCI_ACCEPT, .from = 0, .node = 1 },
        { .kind = SCI_PERFORM, .node = 1 },
    };
    sci_machine machine = SCI_INIT, again = SCI_INIT;
    sci_text_fault fault;
    sci_stamped last;
    sci_seen seen;
    sci_dead dead;
    uint8_t schedule[1024], line[1024];
    size_t length, used;

    must("open", sci_machine_open(&machine, 2, 4, 2, 16));
    must("size", sci_size_write(2, 4, 2, schedule, sizeof schedule, &length));
    for (size_t i = 0; i < sizeof events / sizeof *events; i++) {
        must("step", sci_machine_step_seen(&machine, &events[i], &seen));
        must("event", sci_event_write(&events[i], schedule + length, sizeof schedule - length, &used));
        length += used;
        if (seen.has_packet) {
            must("packet", sci_packet_write(&seen.packet, line, sizeof line, &used));
            printf("%.*s", (int)used, (const char *)line);
        }
    }
    printf("%.*s", (int)length, (const char *)schedule);

    must("replay", sci_machine_replay(&again, schedule, length, 16, &dead, &fault));
    must("last", sci_machine_last(&again, 0, &last));
    printf("%u events weren't enabled, and word 3 of line 0 is %llu\n", (unsigned)dead.count, (unsigned long long)last.words[3]);
    sci_machine_close(&again);
    sci_machine_close(&machine);
    return 0;
}
