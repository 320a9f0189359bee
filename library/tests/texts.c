/* The lines that are written, schedules that are followed, and what is wrong with logs. */
#include "expect.h"

/* The lines of texts: each needs as much room as it has bytes, and what says nothing has none. */
static void lines(void) {
    static const char size[] = "machine 2 4 2\n", ask[] = "ask 1 0 mread\n", stores[] = "0 0 store 0 3 42 = - @1\n";
    static const char sent[] = "mread to 0 from 1 control 5 line 2\n";
    const sci_event event = { SCI_ASK, 1, 9, 0, SCI_MREAD, { 9, 9, 9, 9, 9, 9 } };
    sci_event no_event = issue;
    sci_entry no_entry = entry;
    sci_packet packet;
    uint8_t text[64];
    size_t used = 7;
    memset(&packet, 0, sizeof packet);
    packet.command = SCI_CMD_MREAD;
    packet.source = 1;
    packet.control = 5;
    packet.line = 2;
    packet.identifier = SCI_NO_NODE;
    memset(text, 9, sizeof text);
    EXPECT(sci_size_write(0, 4, 2, text, sizeof text, &used), SCI_RANGE);
    EXPECT(sci_size_write(17, 4, 2, text, sizeof text, &used), SCI_RANGE);
    EXPECT(sci_size_write(2, 65, 2, text, sizeof text, &used), SCI_RANGE);
    EXPECT(sci_size_write(2, 4, 9, text, sizeof text, &used), SCI_RANGE);
    no_event.kind = 7;
    EXPECT(sci_event_write(&no_event, text, sizeof text, &used), SCI_RANGE);
    no_event = event;
    no_event.ask = 9;
    EXPECT(sci_event_write(&no_event, text, sizeof text, &used), SCI_RANGE);
    no_entry.has_word = 1;
    EXPECT(sci_entry_write(&no_entry, text, sizeof text, &used), SCI_RANGE);
    packet.has_contents = 1;
    EXPECT(sci_packet_write(&packet, text, sizeof text, &used), SCI_RANGE);
    packet.has_contents = 0;
    packet.command = 0x7777;
    EXPECT(sci_packet_write(&packet, text, sizeof text, &used), SCI_UNKNOWN_COMMAND);
    packet.command = SCI_CMD_MDATA;
    EXPECT(sci_packet_write(&packet, text, sizeof text, &used), SCI_SHORT);
    packet.command = SCI_CMD_MREAD;
    packet.target = SCI_NO_NODE;
    EXPECT(sci_packet_write(&packet, text, sizeof text, &used), SCI_BAD_IDENTIFIER);
    packet.target = 0;
    CHECK(used == 7 && text[0] == 9);

#define LINE(call, wanted)                                                                                      \
    do {                                                                                                        \
        size_t room = 0;                                                                                        \
        EXPECT(call, SCI_FULL);                                                                                 \
        CHECK(used == sizeof wanted - 1 && text[0] == 9);                                                       \
        room = used - 1;                                                                                        \
        EXPECT(call, SCI_FULL);                                                                                 \
        CHECK(used == sizeof wanted - 1 && text[0] == 9);                                                       \
        room = used;                                                                                            \
        EXPECT(call, SCI_OK);                                                                                   \
        CHECK(used == sizeof wanted - 1 && memcmp(text, wanted, used) == 0 && text[used] == 9);                 \
        memset(text, 9, sizeof text);                                                                           \
    } while (0)

    LINE(sci_size_write(2, 4, 2, text, room, &used), size);
    LINE(sci_event_write(&event, text, room, &used), ask);
    LINE(sci_entry_write(&entry, text, room, &used), stores);
    LINE(sci_packet_write(&packet, text, room, &used), sent);
}

/* A schedule of the events of a machine leads to the same machine. */
static void schedules(void) {
    static const char no_schedule[] = "machine 2 4 2\nissue 0 load 0 0\nissue 0 load 4 0\n";
    static const uint8_t kinds[] = { SCI_ISSUE, SCI_ASK, SCI_SERVE, SCI_REPLY, SCI_ACCEPT, SCI_ISSUE, SCI_PERFORM };
    sci_machine machine = SCI_INIT, again = SCI_INIT;
    sci_stamped here, there;
    sci_dead dead = { 7, 7, 7 };
    sci_text_fault fault = { 7, 7, 7 };
    uint8_t text[512];
    size_t length = 0, used = 7;
    EXPECT(sci_machine_open(&machine, 2, 4, 2, 16), SCI_OK);
    EXPECT(sci_size_write(2, 4, 2, text, sizeof text, &length), SCI_OK);
    for (size_t i = 0; i < sizeof kinds; i++) {
        const uint8_t node = kinds[i] == SCI_SERVE || kinds[i] == SCI_REPLY ? 0 : 1;
        const sci_event event = { kinds[i], node, (uint8_t)(1 - node), 0, SCI_MREAD, store };
        EXPECT(sci_machine_step(&machine, &event), i == 5 ? SCI_NOT_ENABLED : SCI_OK);
        EXPECT(sci_event_write(&event, text + length, sizeof text - length, &used), SCI_OK);
        length += used;
    }
    EXPECT(sci_machine_replay(&machine, text, length, 16, &dead, &fault), SCI_MISUSE);
    EXPECT(sci_machine_replay(&again, text, length, 0, &dead, &fault), SCI_RANGE);
    EXPECT(sci_machine_replay(&again, text, length, 65537, &dead, &fault), SCI_RANGE);
    CHECK(again.live == 0 && dead.count == 7 && fault.line == 7);
    EXPECT(sci_machine_replay(&again, text, 0, 16, &dead, &fault), SCI_TEXT);
    CHECK(again.live == 0 && dead.count == 7 && fault.line == 1 && fault.kind == SCI_TEXT_SYNTAX);
    EXPECT(sci_machine_replay(&again, text, length - 1, 16, &dead, &fault), SCI_TEXT);
    CHECK(again.live == 0 && dead.count == 7 && fault.line == 8 && fault.kind == SCI_TEXT_SYNTAX);
    EXPECT(sci_machine_replay(&again, (const uint8_t *)no_schedule, sizeof no_schedule - 1, 16, &dead, &fault), SCI_TEXT);
    CHECK(again.live == 0 && dead.count == 7 && fault.line == 3 && fault.kind == SCI_TEXT_RANGE);
    fault.line = 7;
    EXPECT(sci_machine_replay(&again, text, length, 16, &dead, &fault), SCI_OK);
    CHECK(dead.count == 1 && dead.place == 5 && dead.obstacle == SCI_ALREADY_PENDING && fault.line == 7);
    EXPECT(sci_machine_last(&machine, 0, &here), SCI_OK);
    EXPECT(sci_machine_last(&again, 0, &there), SCI_OK);
    CHECK(here.version == 1 && here.words[3] == 42 && memcmp(&here, &there, sizeof here) == 0);
    EXPECT(sci_machine_close(&again), SCI_OK);
    EXPECT(sci_machine_replay(&again, text, (size_t)(strstr((const char *)text, "issue") - (const char *)text), 1, &dead, &fault), SCI_OK);
    CHECK(dead.count == 0 && dead.place == 0 && dead.obstacle == SCI_NO_OBSTACLE);
    EXPECT(sci_machine_step(&again, &issue), SCI_OK);
    EXPECT(sci_machine_settle(&again, &dead.count), SCI_OK);
    EXPECT(sci_machine_step(&again, &issue), SCI_NOT_ENABLED);
    EXPECT(sci_machine_close(&again), SCI_OK);
    EXPECT(sci_machine_close(&machine), SCI_OK);
}

/* What is wrong with logs, in words; and logs that can't be a text. */
static void explanations(void) {
    static const char log[] = "log 2 3 1\nlast 0 @2 8 0 0 0 0 0 0 0\n0 0 store 0 0 7 = - @1\n1 0 load 0 0 = 7 @2\n"
                              "2 0 store 0 0 8 = - @2\n";
    static const char wanted[] =
        "fault 3 wrong-reply line 0 node 1 serial 0\n"
        "  line 4: node 1 serial 0 loads word 0 at version 2 and got 7; the word there is 8, made by node 2 serial 0\n"
        "  entries of the line in the order of versions:\n"
        "    line 3: 0 0 store 0 0 7 = - @1\n"
        "    line 5: 2 0 store 0 0 8 = - @2\n"
        "  > line 4: 1 0 load 0 0 = 7 @2\n";
    sci_logs logs = SCI_INIT, empty = SCI_INIT;
    sci_text_fault fault;
    sci_entry late = entry;
    uint8_t text[512];
    size_t used = 7;
    memset(text, 9, sizeof text);
    EXPECT(sci_logs_read(&logs, (const uint8_t *)log, sizeof log - 1, &fault), SCI_OK);
    EXPECT(sci_logs_explain(&logs, text, sizeof wanted - 2, &used), SCI_FULL);
    CHECK(used == sizeof wanted - 1 && text[0] == 9);
    EXPECT(sci_logs_explain(&logs, text, sizeof wanted - 1, &used), SCI_OK);
    CHECK(used == sizeof wanted - 1 && memcmp(text, wanted, used) == 0 && text[used] == 9);
    EXPECT(sci_logs_open(&empty, 2, 1), SCI_OK);
    EXPECT(sci_logs_explain(&empty, text, sizeof text, &used), SCI_OK);
    CHECK(used == 7 && memcmp(text, "lawful\n", used) == 0);
    late.serial = 65536;
    EXPECT(sci_logs_push(&empty, &late), SCI_OK);
    EXPECT(sci_logs_explain(&empty, text, sizeof text, &used), SCI_RANGE);
    CHECK(used == 7);
    EXPECT(sci_logs_close(&logs), SCI_OK);
    EXPECT(sci_logs_close(&empty), SCI_OK);
}

int main(void) {
    lines();
    schedules();
    explanations();
    return failed;
}
