/* No call takes more than the 8 KB of stack that lichenknit.h states. Each is made on a stack of its own, which is filled before it; what
** isn't as it was then has been used. With an argument it prints what each call took. */
#define _XOPEN_SOURCE 700
#include <stdio.h>
#include <string.h>
#include <ucontext.h>

#include "lichenknit.h"

#define ROOM 0x40000
#define STATED 0x2000
#define FILL 0xA5

static _Alignas(64) unsigned char stack[ROOM];
static ucontext_t here, there;

/* What the calls are made with. */
static sci_machine machine = SCI_INIT, copy = SCI_INIT, again = SCI_INIT;
static sci_node node = SCI_INIT, home = SCI_INIT, other = SCI_INIT;
static sci_logs logs = SCI_INIT, empty = SCI_INIT, read_again = SCI_INIT, wrong = SCI_INIT, many = SCI_INIT, many_again = SCI_INIT;
static sci_scoreboard board = SCI_INIT;
static const sci_op store = { SCI_STORE, 0, 3, 0, 0, 42 };
static const sci_event events[] = {
    { SCI_ISSUE, 15, 0, 0, 0, { SCI_STORE, 0, 3, 0, 0, 42 } },
    { SCI_ASK, 15, 0, 0, SCI_MREAD, { 0, 0, 0, 0, 0, 0 } },
    { SCI_SERVE, 0, 15, 0, 0, { 0, 0, 0, 0, 0, 0 } },
    { SCI_REPLY, 0, 0, 0, 0, { 0, 0, 0, 0, 0, 0 } },
    { SCI_ACCEPT, 15, 0, 0, 0, { 0, 0, 0, 0, 0, 0 } },
    { SCI_PERFORM, 15, 0, 0, 0, { 0, 0, 0, 0, 0, 0 } },
};
static sci_entry entry = { 0, 0, 0, 1, { SCI_STORE, 0, 3, 0, 0, 42 }, 0, 2 }, entries[64];
static const sci_entry first = { 0, 0, 0, 0, { SCI_STORE, 0, 3, 0, 0, 42 }, 0, 1 };
static const sci_entry later = { 0, 0, 0, 0, { SCI_STORE, 0, 3, 0, 0, 42 }, 0, 1601 };
static const sci_entry bad = { 1, 1, 0, 0, { SCI_LOAD, 0, 3, 0, 0, 0 }, 7, 1 };
static sci_packet packet, came[8], sent[8 + SCI_TURN_ROOM];
static sci_held held;
static sci_home home_state;
static sci_seen seen;
static sci_want want;
static sci_dead dead;
static sci_verdict verdict;
static sci_stamped stamped;
static sci_text_fault fault;
static sci_op op;
static uint8_t marks[8], bytes[SCI_PACKET_BYTES], answer[SCI_PACKET_BYTES], text[1 << 16], line[512], list[SCI_MAX_NODES], small, lines;
static uint64_t words[SCI_PACKET_WORDS];
static uint32_t number;
static const sci_access accesses[] = {
    { 0, SCI_ACCESS_STORE, 0, 0, 8, 0, 1, 0, UINT64_MAX, 0 },
    { 0, SCI_ACCESS_LOAD, 0, 0, 16, 0, 0, 0, UINT64_MAX, 1 },
    { 1, SCI_ACCESS_STORE, 0, 0, 16, 0, 1, 0, UINT64_MAX, 2 },
    { 1, SCI_ACCESS_LOAD, 0, 0, 8, 0, 0, 0, UINT64_MAX, 3 },
    { 1, SCI_ACCESS_LOAD, 0, 0, 8, 1, 0, 0, UINT64_MAX, 4 },
    { 1, SCI_ACCESS_LOAD, 0, 0, 8, 0, 0, 0, UINT64_MAX, 5 },
};
static sci_access many_accesses[800];
static const sci_last_word last_word = { 8, 1 };
static const sci_trace_way way = { 1, 1, 1000 };
static sci_judgement judgement;
static size_t used, length, answer_length, written;
static sci_status status;

#define CALLS(CALL)                                                                                            \
    CALL(sci_machine_open, &machine, 16, 64, 8, 16)                                                            \
    CALL(sci_machine_obstacle, &machine, &events[0], &number)                                                  \
    CALL(sci_machine_step, &machine, &events[0])                                                               \
    CALL(sci_machine_pending, &machine, 15, 0, &op, &number)                                                   \
    CALL(sci_machine_step_seen, &machine, &events[1], &seen)                                                   \
    CALL(sci_machine_packet, &machine, SCI_REQUESTS, 15, 0, 0, &packet)                                        \
    CALL(sci_machine_step, &machine, &events[2])                                                               \
    CALL(sci_machine_answer, &machine, 0, &packet)                                                             \
    CALL(sci_machine_step, &machine, &events[3])                                                               \
    CALL(sci_machine_step, &machine, &events[4])                                                               \
    CALL(sci_machine_step_seen, &machine, &events[5], &seen)                                                   \
    CALL(sci_machine_held, &machine, 15, 0, &held)                                                             \
    CALL(sci_machine_home, &machine, 0, 0, &home_state)                                                        \
    CALL(sci_machine_sharing, &machine, 0, list, sizeof list, &used)                                           \
    CALL(sci_machine_authority, &machine, 0, &small)                                                           \
    CALL(sci_machine_last, &machine, 0, &stamped)                                                              \
    CALL(sci_machine_clone, &machine, &copy)                                                                   \
    CALL(sci_machine_settle, &machine, &number)                                                                \
    CALL(sci_machine_logs, &machine, &logs)                                                                    \
    CALL(sci_logs_audit, &logs, &verdict)                                                                      \
    CALL(sci_logs_audit_cut_off, &logs, &verdict)                                                              \
    CALL(sci_logs_order, &logs, &number, entries, 64, &used)                                                   \
    CALL(sci_logs_order_kind, &logs, &number)                                                                  \
    CALL(sci_logs_explain, &logs, text, sizeof text, &length)                                                  \
    CALL(sci_logs_write, &logs, text, sizeof text, &length)                                                    \
    CALL(sci_logs_read, &read_again, text, length, &fault)                                                     \
    CALL(sci_logs_open, &empty, 16, 64)                                                                        \
    CALL(sci_logs_push, &empty, &entry)                                                                        \
    CALL(sci_logs_set_last, &empty, 0, &stamped)                                                               \
    CALL(sci_logs_last, &empty, 0, &stamped)                                                                   \
    CALL(sci_logs_size, &empty, &small, &lines)                                                                \
    CALL(sci_logs_count, &empty, 0, &used)                                                                     \
    CALL(sci_logs_explain, &empty, text, sizeof text, &length)                                                 \
    CALL(sci_logs_entry, &empty, 0, 0, &entry)                                                                 \
    CALL(sci_logs_set_first, &empty, 0, &stamped)                                                              \
    CALL(sci_logs_first, &empty, 0, &stamped)                                                                  \
    CALL(sci_logs_audit, &empty, &verdict)                                                                     \
    CALL(sci_logs_audit_cut_off, &empty, &verdict)                                                             \
    CALL(sci_logs_order, &empty, &number, entries, 64, &used)                                                  \
    CALL(sci_logs_order_kind, &empty, &number)                                                                 \
    CALL(sci_logs_go_on, &empty)                                                                               \
    CALL(sci_logs_open, &wrong, 16, 64)                                                                        \
    CALL(sci_logs_push, &wrong, &first)                                                                        \
    CALL(sci_logs_push, &wrong, &bad)                                                                          \
    CALL(sci_logs_wanted, &wrong, &words[0], &number, &entry)                                                  \
    CALL(sci_logs_close, &wrong)                                                                               \
    CALL(sci_scoreboard_open, &board, 16, 64)                                                                  \
    CALL(sci_scoreboard_tell, &board, &first, &verdict)                                                        \
    CALL(sci_scoreboard_contents, &board, 0, &stamped)                                                         \
    CALL(sci_scoreboard_begin, &board, 0, &stamped)                                                            \
    CALL(sci_scoreboard_close, &board)                                                                         \
    CALL(sci_trace_judge, accesses, 4, &last_word, 1, &way, &judgement, words, SCI_PACKET_WORDS)               \
    CALL(sci_trace_judge, accesses, 6, &last_word, 1, &way, &judgement, words, SCI_PACKET_WORDS)               \
    CALL(sci_trace_judge, many_accesses, 400, &last_word, 0, &way, &judgement, words, SCI_PACKET_WORDS)        \
    CALL(sci_trace_judge, many_accesses, 800, &last_word, 0, &way, &judgement, words, SCI_PACKET_WORDS)        \
    CALL(sci_logs_audit, &many, &verdict)                                                                      \
    CALL(sci_logs_audit_cut_off, &many, &verdict)                                                              \
    CALL(sci_logs_order_kind, &many, &number)                                                                  \
    CALL(sci_logs_explain, &many, text, sizeof text, &length)                                                  \
    CALL(sci_logs_write, &many, text, sizeof text, &length)                                                    \
    CALL(sci_logs_read, &many_again, text, length, &fault)                                                     \
    CALL(sci_logs_push, &many_again, &bad)                                                                     \
    CALL(sci_logs_explain, &many_again, text, sizeof text, &length)                                            \
    CALL(sci_logs_wanted, &many_again, &words[0], &number, &entry)                                             \
    CALL(sci_logs_go_on, &many)                                                                                \
    CALL(sci_logs_push, &many, &later)                                                                         \
    CALL(sci_logs_audit, &many, &verdict)                                                                      \
    CALL(sci_logs_audit_cut_off, &many, &verdict)                                                              \
    CALL(sci_logs_order_kind, &many, &number)                                                                  \
    CALL(sci_logs_close, &many)                                                                                \
    CALL(sci_logs_close, &many_again)                                                                          \
    CALL(sci_packet_encode, &packet, bytes, &length)                                                             \
    CALL(sci_packet_decode, bytes, length, &packet, &used)                                                     \
    CALL(sci_packet_to_words, &packet, words, &used)                                                           \
    CALL(sci_packet_from_words, words, used, &packet, &written)                                                \
    CALL(sci_packet_write, &packet, line, sizeof line, &used)                                                  \
    CALL(sci_entry_write, &entry, line, sizeof line, &used)                                                    \
    CALL(sci_size_write, 16, 64, 8, text, sizeof text, &length)                                                \
    CALL(sci_event_write, &events[0], text + length, sizeof text - length, &used)                              \
    CALL(sci_machine_replay, &again, text, length + used, 16, &dead, &fault)                                   \
    CALL(sci_node_open, &node, 15, 16, 64, 8, 16)                                                              \
    CALL(sci_node_open, &home, 0, 16, 64, 8, 16)                                                               \
    CALL(sci_node_clone, &node, &other)                                                                        \
    CALL(sci_node_start_log, &other, 16)                                                                       \
    CALL(sci_node_issue, &node, &store, &number)                                                               \
    CALL(sci_node_pending, &node, 0, &op, &number)                                                             \
    CALL(sci_node_turn, &other, came, 8, marks, 8, sent, 8 + SCI_TURN_ROOM, &used, &want)                        \
    CALL(sci_node_begin_turn, &node)                                                                           \
    CALL(sci_node_next, &node, &want)                                                                          \
    CALL(sci_node_ask, &node, 0, SCI_MREAD, bytes, &length)                                                    \
    CALL(sci_node_decide, &home, bytes, length, &number)                                                       \
    CALL(sci_node_serve, &home, bytes, length)                                                                 \
    CALL(sci_node_answer, &home, &packet)                                                                      \
    CALL(sci_node_take_answer, &home, answer, &answer_length)                                                  \
    CALL(sci_node_refuse, &home, bytes, length)                                                                \
    CALL(sci_node_first_sender, &home, &small)                                                                 \
    CALL(sci_node_accept, &node, answer, answer_length)                                                        \
    CALL(sci_node_held, &node, 0, &held)                                                                       \
    CALL(sci_node_home_state, &home, 0, &home_state)                                                           \
    CALL(sci_node_home, &home, 16, &stamped)                                                                   \
    CALL(sci_node_perform, &node, 0, &entry)                                                                   \
    CALL(sci_node_is_at_rest, &node, &number)                                                                  \
    CALL(sci_machine_close, &machine)                                                                          \
    CALL(sci_machine_close, &copy)                                                                             \
    CALL(sci_machine_close, &again)                                                                            \
    CALL(sci_node_close, &node)                                                                                \
    CALL(sci_node_close, &home)                                                                                \
    CALL(sci_node_close, &other)                                                                               \
    CALL(sci_logs_close, &logs)                                                                                \
    CALL(sci_logs_close, &empty)                                                                               \
    CALL(sci_logs_close, &read_again)

/* One of the calls, by its place. */
static int place;

static void make(void) {
    int at = 0;
#define CALL(name, ...)              \
    if (at++ == place) {             \
        status = name(__VA_ARGS__);  \
        return;                      \
    }
    CALLS(CALL)
#undef CALL
}

/* Logs of 1,600 operations that add 1 to a word, and traces of 400 such operations and of 400 more on words that are written twice. */
static void fill(void) {
    const sci_stamped last = { 1600, { 0, 0, 0, 1600, 0, 0, 0, 0 } };
    sci_logs_open(&many, 16, 64);
    for (uint32_t i = 0; i < 1600; i++) {
        const sci_entry add = { (uint8_t)(i % 16), 1, 0, i / 16, { SCI_FETCH_ADD, 0, 3, 0, 0, 1 }, i, i + 1 };
        sci_logs_push(&many, &add);
    }
    sci_logs_set_last(&many, 0, &last);
    for (uint32_t i = 0; i < 800; i++) {
        const sci_access access = { (uint8_t)(i % 16), SCI_ACCESS_ATOMIC, 0, 0, i < 400 ? 8 : 16, i % 400 % (i < 400 ? 400 : 7), i % 400 % (i < 400 ? 400 : 7) + 1,
            i, i + 20, i };
        many_accesses[i] = access;
    }
}

/* How many bytes of its own stack a call takes, with the frame of make. */
static size_t taken(void) {
    size_t free_bytes = 0;
    memset(stack, FILL, sizeof stack);
    getcontext(&there);
    there.uc_stack.ss_sp = stack;
    there.uc_stack.ss_size = sizeof stack;
    there.uc_link = &here;
    makecontext(&there, make, 0);
    swapcontext(&here, &there);
    while (free_bytes < sizeof stack && stack[free_bytes] == FILL) {
        free_bytes++;
    }
    return sizeof stack - free_bytes;
}

int main(int count, char **arguments) {
    static const char *const names[] = {
#define CALL(name, ...) #name,
        CALLS(CALL)
#undef CALL
    };
    int failed = 0;
    (void)arguments;
    fill();
    for (place = 0; place < (int)(sizeof names / sizeof *names); place++) {
        const size_t bytes_taken = taken();
        if (count > 1) {
            printf("%-24s %6zu\n", names[place], bytes_taken);
        }
        if (status != SCI_OK) {
            printf("%s: %s\n", names[place], sci_status_text(status));
            failed = 1;
        }
        if (bytes_taken > STATED) {
            printf("%s takes %zu bytes of stack\n", names[place], bytes_taken);
            failed = 1;
        }
    }
    return failed;
}
