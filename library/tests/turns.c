/* Copies of nodes, the limit of issues, and whole turns. */
#include "expect.h"

/* A copy of a node goes its own way, and a node that has issued all that it may says so. */
static void copies(void) {
    sci_node node = SCI_INIT, copy = SCI_INIT;
    sci_op op = store;
    sci_want want = { 7, 7, 7, 7 };
    uint8_t packet[SCI_PACKET_BYTES];
    uint32_t serial = 7;
    size_t used = 7;
    EXPECT(sci_node_open(&node, 1, 2, 4, 2, 2), SCI_OK);
    EXPECT(sci_node_issue(&node, &op, &serial), SCI_OK);
    EXPECT(sci_node_clone(&node, &copy), SCI_OK);
    EXPECT(sci_node_clone(&node, &copy), SCI_MISUSE);
    op.line = 1;
    EXPECT(sci_node_issue(&node, &op, &serial), SCI_OK);
    CHECK(serial == 1);
    serial = 7;
    op.line = 2;
    EXPECT(sci_node_issue(&node, &op, &serial), SCI_FULL);
    op.line = 1;
    EXPECT(sci_node_issue(&node, &op, &serial), SCI_NOT_ENABLED);
    op.line = 4;
    EXPECT(sci_node_issue(&node, &op, &serial), SCI_NOT_ENABLED);
    op = store;
    op.line = 2;
    op.word = 8;
    EXPECT(sci_node_issue(&node, &op, &serial), SCI_NOT_ENABLED);
    op.act = 7;
    EXPECT(sci_node_issue(&node, &op, &serial), SCI_RANGE);
    CHECK(serial == 7);
    EXPECT(sci_node_pending(&copy, 0, &op, &serial), SCI_OK);
    CHECK(serial == 0 && op.datum == 42);
    EXPECT(sci_node_pending(&copy, 1, &op, &serial), SCI_NOT_ENABLED);
    EXPECT(sci_node_next(&copy, &want), SCI_OK);
    CHECK(want.kind == SCI_WANT_ASK && want.line == 0 && want.ask == SCI_MREAD);
    EXPECT(sci_node_ask(&copy, 0, SCI_MREAD, packet, &used), SCI_OK);
    EXPECT(sci_node_ask(&node, 0, SCI_MREAD, packet, &used), SCI_OK);
    op = store;
    op.line = 3;
    EXPECT(sci_node_issue(&copy, &op, &serial), SCI_OK);
    CHECK(serial == 1);
    EXPECT(sci_node_close(&node), SCI_OK);
    EXPECT(sci_node_close(&copy), SCI_OK);
    EXPECT(sci_node_clone(&node, &copy), SCI_MISUSE);
}

/* Turns: what came is marked, what is sent stands in its order, and room or marks that don't do change nothing. */
static void turns(void) {
    enum { CAME = 3, SENT = CAME + SCI_TURN_ROOM };
    sci_node node = SCI_INIT, home = SCI_INIT;
    sci_packet came[CAME], sent[SENT];
    uint8_t taken[CAME] = { 7, 7, 7 };
    sci_op op = store;
    sci_entry found = entry;
    sci_held held;
    sci_want want = { 7, 7, 7, 7 };
    uint32_t serial;
    size_t used = 7;
    memset(came, 7, sizeof came);
    memset(sent, 7, sizeof sent);
    EXPECT(sci_node_open(&node, 1, 2, 8, 8, 16), SCI_OK);
    EXPECT(sci_node_open(&home, 0, 2, 8, 8, 16), SCI_OK);
    for (op.line = 0; op.line < 6; op.line++) {
        EXPECT(sci_node_issue(&node, &op, &serial), SCI_OK);
    }
    EXPECT(sci_node_turn(&node, came, CAME, taken, CAME - 1, sent, SENT, &used, &want), SCI_RANGE);
    EXPECT(sci_node_turn(&node, came, CAME, taken, CAME - 1, sent, 0, &used, &want), SCI_RANGE);
    EXPECT(sci_node_turn(&node, came, CAME, taken, CAME, sent, SENT - 1, &used, &want), SCI_FULL);
    EXPECT(sci_node_turn(&node, came, 0, taken, 0, sent, SCI_TURN_ROOM - 1, &used, &want), SCI_FULL);
    EXPECT(sci_node_held(&node, 0, &held), SCI_OK);
    CHECK(held.state == SCI_OUT && used == 7 && taken[0] == 7 && sent[0].target == 0x0707 && want.kind == 7);
    /* it asks four times, and none of the packets is one */
    EXPECT(sci_node_turn(&node, came, CAME, taken, CAME, sent, SENT, &used, &want), SCI_OK);
    CHECK(used == 4 && taken[0] == 0 && taken[1] == 0 && taken[2] == 0 && want.kind == SCI_WANT_NOTHING && want.line == 0);
    for (size_t i = 0; i < 4; i++) {
        CHECK(sent[i].command == SCI_CMD_MREAD && sent[i].line == i && sent[i].source == 1 && sent[i].target == i % 2);
    }
    CHECK(sent[4].target == 0x0707);
    /* its home serves one, and leaves what is for another and what is no packet */
    came[0] = sent[1];
    came[1] = sent[0];
    EXPECT(sci_node_turn(&home, came, CAME, taken, CAME, sent, SENT, &used, &want), SCI_OK);
    CHECK(used == 1 && taken[0] == 0 && taken[1] == 1 && taken[2] == 0 && want.kind == SCI_WANT_NOTHING);
    CHECK(sent[0].command == SCI_CMD_MDATA && sent[0].target == 1 && sent[0].line == 0);
    /* the answer is accepted once, and the node asks for the other two lines */
    came[0] = sent[0];
    came[1] = sent[0];
    EXPECT(sci_node_turn(&node, came, 2, taken, CAME, sent, SENT, &used, &want), SCI_OK);
    CHECK(taken[0] == 1 && taken[1] == 0 && used == 0 && want.kind == SCI_WANT_PERFORM && want.line == 0);
    EXPECT(sci_node_perform(&node, want.line, &found), SCI_OK);
    CHECK(found.version == 1);
    EXPECT(sci_node_turn(&node, came, 0, taken, 0, sent, SENT, &used, &want), SCI_OK);
    CHECK(used == 2 && sent[0].line == 4 && sent[1].line == 5 && want.kind == SCI_WANT_NOTHING);
    EXPECT(sci_node_close(&node), SCI_OK);
    EXPECT(sci_node_close(&home), SCI_OK);
}

int main(void) {
    copies();
    turns();
    return failed;
}
