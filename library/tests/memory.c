/* Each allocation of a run is refused in turn: the call says so, its objects are as they were, and nothing is lost. The linker
** puts the functions below before malloc and realloc (--wrap). */
#include <stdio.h>
#include <stdlib.h>

#include "lichenknit.h"

void *__real_malloc(size_t size);
void *__real_realloc(void *at, size_t size);
void __real_free(void *at);
void *__wrap_malloc(size_t size);
void *__wrap_realloc(void *at, size_t size);
void __wrap_free(void *at);

static long left = -1; /* allocations until one is refused, or -1 */
static long live = 0;

static int refuses(void) {
    if (left < 0) {
        return 0;
    }
    return left-- == 0;
}

void *__wrap_malloc(size_t size) {
    if (refuses()) {
        return NULL;
    }
    live++;
    return __real_malloc(size);
}

void *__wrap_realloc(void *at, size_t size) {
    return refuses() ? NULL : __real_realloc(at, size);
}

void __wrap_free(void *at) {
    live -= at != NULL;
    __real_free(at);
}

static const sci_op store = { SCI_STORE, 0, 3, 0, 0, 42 };

/* One run, in which the allocation of that number is refused. Says whether there was one. */
static int run(long refused) {
    const uint8_t kinds[] = { SCI_ISSUE, SCI_ASK, SCI_SERVE, SCI_REPLY, SCI_ACCEPT, SCI_PERFORM };
    const sci_entry made = { 1, 0, 0, 0, store, 0, 1 };
    const sci_packet packet = { 0, SCI_CMD_MREAD, 1, 0, 0, SCI_NO_NODE, 0, 0, 0, { 0, 0, 0, 0, 0, 0, 0, 0 } };
    sci_machine machine = SCI_INIT, copy = SCI_INIT, again = SCI_INIT;
    sci_node node = SCI_INIT, other = SCI_INIT;
    const sci_stamped first = { 0, { 0, 0, 0, 7, 0, 0, 0, 0 } }, last = { 1, { 0, 0, 0, 42, 0, 0, 0, 0 } };
    sci_logs logs = SCI_INIT, read = SCI_INIT, window = SCI_INIT;
    const sci_entry bad = { 1, 1, 0, 0, { SCI_LOAD, 0, 3, 0, 0, 0 }, 7, 0 };
    sci_logs wrong = SCI_INIT;
    sci_scoreboard board = SCI_INIT;
    sci_entry maker = made;
    uint64_t word = 9;
    uint32_t number = 9;
    sci_verdict verdict = { 9, 9, 9, 9, 9 };
    sci_text_fault fault = { 0, 0, 0 };
    sci_dead dead = { 9, 9, 9 };
    sci_entry entries[4];
    uint8_t text[4096], list[SCI_MAX_NODES];
    uint32_t kind = 9;
    size_t used = 0, length = 0;
    uint32_t events = 0;
    /* The store buffer. */
    const sci_access accesses[4] = {
        { 0, SCI_ACCESS_STORE, 0, 0, 8, 0, 1, 0, UINT64_MAX, 0 },
        { 0, SCI_ACCESS_LOAD, 0, 0, 16, 0, 0, 0, UINT64_MAX, 1 },
        { 1, SCI_ACCESS_STORE, 0, 0, 16, 0, 1, 0, UINT64_MAX, 2 },
        { 1, SCI_ACCESS_LOAD, 0, 0, 8, 0, 0, 0, UINT64_MAX, 3 },
    };
    const sci_last_word last_word = { 8, 1 };
    const sci_trace_way way = { 0, 1, 1000 };
    sci_judgement judgement;
    uint64_t ids[4];
    int was_refused = 0;
    left = refused;

/* Makes a call, and once more if memory was refused. Its object is as it was then. */
#define MAKE(call, object)                                           \
    do {                                                             \
        const void *const at_ = (object).at;                         \
        const uint32_t live_ = (object).live;                        \
        sci_status status_ = (call);                                 \
        if (status_ == SCI_NO_MEMORY) {                              \
            was_refused++;                                           \
            if ((object).at != at_ || (object).live != live_) {      \
                exit(3);                                             \
            }                                                        \
            status_ = (call);                                        \
        }                                                            \
        if (status_ != SCI_OK) {                                     \
            printf("%s: %s\n", #call, sci_status_text(status_));     \
            exit(4);                                                 \
        }                                                            \
    } while (0)

    MAKE(sci_size_write(2, 4, 2, text, sizeof text, &length), machine);
    MAKE(sci_machine_open(&machine, 2, 4, 2, 16), machine);
    for (size_t i = 0; i < sizeof kinds; i++) {
        const uint8_t node = kinds[i] == SCI_SERVE || kinds[i] == SCI_REPLY ? 0 : 1;
        const sci_event event = { kinds[i], node, (uint8_t)(1 - node), 0, SCI_MREAD, store };
        MAKE(sci_machine_step(&machine, &event), machine);
        MAKE(sci_event_write(&event, text + length, sizeof text - length, &used), machine);
        length += used;
    }
    MAKE(sci_machine_replay(&again, text, length, 16, &dead, &fault), again);
    MAKE(sci_machine_clone(&machine, &copy), copy);
    MAKE(sci_node_open(&node, 0, 2, 4, 2, 16), node);
    MAKE(sci_node_clone(&node, &other), other);
    MAKE(sci_node_start_log(&other, 16), other);
    MAKE(sci_entry_write(&made, text, sizeof text, &used), machine);
    MAKE(sci_packet_write(&packet, text, sizeof text, &used), machine);
    MAKE(sci_machine_sharing(&machine, 0, list, sizeof list, &used), machine);
    MAKE(sci_machine_settle(&machine, &events), machine);
    MAKE(sci_machine_logs(&machine, &logs), logs);
    MAKE(sci_logs_audit(&logs, &verdict), logs);
    MAKE(sci_logs_order(&logs, &kind, entries, 4, &used), logs);
    MAKE(sci_logs_order_kind(&logs, &kind), logs);
    MAKE(sci_logs_explain(&logs, text, sizeof text, &used), logs);
    MAKE(sci_logs_write(&logs, text, sizeof text, &used), logs);
    MAKE(sci_logs_read(&read, text, used, &fault), read);
    for (uint32_t serial = 1; serial < 20; serial++) {
        const sci_entry entry = { 1, 0, 0, serial, store, 0, serial + 1 };
        MAKE(sci_logs_push(&read, &entry), read);
    }
    MAKE(sci_logs_open(&window, 2, 1), window);
    MAKE(sci_logs_set_first(&window, 0, &first), window);
    MAKE(sci_logs_push(&window, &made), window);
    MAKE(sci_logs_set_last(&window, 0, &last), window);
    MAKE(sci_logs_audit(&window, &verdict), window);
    MAKE(sci_logs_audit_cut_off(&window, &verdict), window);
    MAKE(sci_logs_order(&window, &kind, entries, 4, &used), window);
    MAKE(sci_logs_order_kind(&window, &kind), window);
    MAKE(sci_logs_go_on(&window), window);
    MAKE(sci_scoreboard_open(&board, 2, 1), board);
    MAKE(sci_logs_open(&wrong, 2, 1), wrong);
    MAKE(sci_logs_push(&wrong, &bad), wrong);
    MAKE(sci_logs_wanted(&wrong, &word, &number, &maker), wrong);
    MAKE(sci_trace_judge(accesses, 4, &last_word, 1, &way, &judgement, ids, 4), wrong);
    left = -1;
    if (judgement.kind != SCI_COHERENT || judgement.consistency != SCI_CONSISTENCY_CYCLE || judgement.named != 4) {
        exit(8);
    }
    if (verdict.kind != SCI_LAWFUL || kind != SCI_ORDER || events == 0 || dead.count != 0) {
        exit(5);
    }
    if (sci_machine_close(&again) || sci_node_close(&node) || sci_node_close(&other)) {
        exit(7);
    }
    if (sci_machine_close(&machine) || sci_machine_close(&copy) || sci_logs_close(&logs) || sci_logs_close(&read) ||
        sci_logs_close(&window) || sci_scoreboard_close(&board) || sci_logs_close(&wrong) || live != 0) {
        printf("%ld blocks are left\n", live);
        exit(6);
    }
    return was_refused != 0;
}

int main(void) {
    long count = 0;
    while (run(count)) {
        count++;
    }
    if (count < 15) {
        printf("only %ld allocations were refused\n", count);
        return 1;
    }
    return 0;
}
