/* A machine of two nodes: node 1 stores 42, the machine comes to rest, and its logs are audited.
**
**     cc -o first first.c $(pkg-config --cflags --libs lichenknit) && ./first
*/
#include <stdio.h>

#include "lichenknit.h"

int main(void) {
    sci_machine machine = SCI_INIT;
    sci_logs logs = SCI_INIT;
    sci_verdict verdict = { SCI_LAST_DIFFERS, 0, 0, 0, 0 };
    uint32_t events;
    const sci_event issue = { .kind = SCI_ISSUE, .node = 1, .op = { .act = SCI_STORE, .word = 3, .datum = 42 } };
    if (sci_machine_open(&machine, 2, 4, 2, 16) == SCI_OK && sci_machine_step(&machine, &issue) == SCI_OK &&
        sci_machine_settle(&machine, &events) == SCI_OK && sci_machine_logs(&machine, &logs) == SCI_OK &&
        sci_logs_audit(&logs, &verdict) == SCI_OK) {
        printf("%s\n", sci_verdict_name(verdict.kind));
    }
    sci_logs_close(&logs);
    sci_machine_close(&machine);
    return verdict.kind != SCI_LAWFUL;
}
