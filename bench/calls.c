/* What calls of the C library take, in nanoseconds of processor time: the least of some tries. Beside some of them stands plain C that
** does the same, with the same checks.
**
**     calls [CALLS OF A TRY [TRIES]]
*/
#define _POSIX_C_SOURCE 200809L
#include <stdio.h>
#include <stdlib.h>
#include <string.h>
#include <time.h>

#include "lichenknit.h"

/* ---- plain C */

enum { NO_CONTENTS = 0, CONTENTS = 1, NO_IDENTIFIER = 0, MAYBE = 2, NEEDED = 4 };

/* Of each command, whether it carries contents and an identifier; 0xFF if there is no such command. */
static uint8_t form_of(uint16_t command) {
    static const uint8_t requests[] = { 0xFF, 0, 0, 0, MAYBE, CONTENTS, NEEDED, 0, 0, 0 };
    static const uint8_t answers[] = { 0xFF, CONTENTS, NEEDED, CONTENTS, MAYBE, 0, 0, 0, 0, 0, CONTENTS | MAYBE };
    if (command < sizeof requests) {
        return requests[command];
    }
    return command >= 0x100 && command < 0x100 + sizeof answers ? answers[command - 0x100] : 0xFF;
}

static uint64_t read_word(const uint8_t *b) {
    return (uint64_t)b[0] << 56 | (uint64_t)b[1] << 48 | (uint64_t)b[2] << 40 | (uint64_t)b[3] << 32 | (uint64_t)b[4] << 24 | (uint64_t)b[5] << 16 |
           (uint64_t)b[6] << 8 | b[7];
}

static void write_word(uint8_t *b, uint64_t word) {
    b[0] = (uint8_t)(word >> 56);
    b[1] = (uint8_t)(word >> 48);
    b[2] = (uint8_t)(word >> 40);
    b[3] = (uint8_t)(word >> 32);
    b[4] = (uint8_t)(word >> 24);
    b[5] = (uint8_t)(word >> 16);
    b[6] = (uint8_t)(word >> 8);
    b[7] = (uint8_t)word;
}

static int has_bad_identifier(const sci_packet *packet, uint8_t form) {
    const int none = packet->identifier == SCI_NO_NODE;
    return packet->target == SCI_NO_NODE || packet->source == SCI_NO_NODE || (none ? form & NEEDED : !(form & (MAYBE | NEEDED)));
}

static sci_status plain_decode(const uint8_t *bytes, size_t length, sci_packet *packet, size_t *used) {
    sci_packet made = { 0 };
    if (length < 16) {
        return SCI_SHORT;
    }
    const uint64_t first = read_word(bytes), second = read_word(bytes + 8);
    made.target = (uint16_t)(first >> 48);
    made.command = (uint16_t)(first >> 32);
    made.source = (uint16_t)(first >> 16);
    made.control = (uint16_t)first;
    made.line = second >> 16;
    made.identifier = (uint16_t)second;
    const uint8_t form = form_of(made.command);
    if (form == 0xFF) {
        return SCI_UNKNOWN_COMMAND;
    }
    if (made.line % 64 != 0) {
        return SCI_BAD_OFFSET;
    }
    made.line /= 64;
    if (has_bad_identifier(&made, form)) {
        return SCI_BAD_IDENTIFIER;
    }
    *used = 16;
    if (form & CONTENTS) {
        if (length < SCI_PACKET_BYTES) {
            return SCI_SHORT;
        }
        made.has_contents = 1;
        made.version = read_word(bytes + 16);
        for (int word = 0; word < SCI_LINE_WORDS; word++) {
            made.words[word] = read_word(bytes + 24 + 8 * word);
        }
        *used = SCI_PACKET_BYTES;
    }
    *packet = made;
    return SCI_OK;
}

static sci_status plain_encode(const sci_packet *packet, uint8_t bytes[SCI_PACKET_BYTES], size_t *used) {
    const uint8_t form = form_of(packet->command);
    if (packet->line >> 42 || packet->has_contents > 1) {
        return SCI_RANGE;
    }
    if (form == 0xFF) {
        return SCI_UNKNOWN_COMMAND;
    }
    if (has_bad_identifier(packet, form)) {
        return SCI_BAD_IDENTIFIER;
    }
    if (packet->has_contents != (form & CONTENTS)) {
        return packet->has_contents ? SCI_RANGE : SCI_SHORT;
    }
    write_word(bytes, (uint64_t)packet->target << 48 | (uint64_t)packet->command << 32 | (uint64_t)packet->source << 16 | packet->control);
    write_word(bytes + 8, packet->line << 22 | packet->identifier);
    if (packet->has_contents) {
        write_word(bytes + 16, packet->version);
        for (int word = 0; word < SCI_LINE_WORDS; word++) {
            write_word(bytes + 24 + 8 * word, packet->words[word]);
        }
    }
    *used = packet->has_contents ? SCI_PACKET_BYTES : 16;
    return SCI_OK;
}

/* ---- what is measured */

enum { LINES = 4, NODES = 4 };

static sci_node node[2];
static sci_scoreboard board = SCI_INIT;
static sci_packet packet = { 1, SCI_CMD_MDATA, 0, 2, 3, SCI_NO_NODE, 1, 0, 7, { 1, 2, 3, 4, 5, 6, 7, 8 } };
static uint8_t bytes[SCI_PACKET_BYTES];
static size_t used;
static uint32_t told;
static unsigned long refused;

static void expect(sci_status status) {
    refused += status != SCI_OK;
}

static void encode(void) { expect(sci_packet_encode(&packet, bytes, &used)); }
static void encode_plain(void) { expect(plain_encode(&packet, bytes, &used)); }
static void decode(void) { expect(sci_packet_decode(bytes, sizeof bytes, &packet, &used)); }
static void decode_plain(void) { expect(plain_decode(bytes, sizeof bytes, &packet, &used)); }

/* An operation on a line that node 0 has. Its log begins again once it is full, which isn't counted often. */
static void operate(void) {
    static const sci_op load = { SCI_LOAD, 0, 0, 0, 0, 0 };
    uint32_t serial;
    sci_entry entry;
    const sci_status status = sci_node_issue(&node[0], &load, &serial);
    if (status == SCI_OK) {
        expect(sci_node_perform(&node[0], 0, &entry));
    } else {
        refused += status != SCI_FULL;
    }
}

static void ask_in_vain(void) { refused += sci_node_ask(&node[0], 0, SCI_MREAD, bytes, &used) != SCI_NOT_ENABLED; }

static void turn(void) {
    sci_packet sent[SCI_TURN_ROOM];
    uint8_t taken[1];
    sci_want want;
    expect(sci_node_turn(&node[1], &packet, 0, taken, 0, sent, SCI_TURN_ROOM, &used, &want));
}

static void held(void) {
    sci_held now;
    expect(sci_node_held(&node[0], 0, &now));
}

/* Adds 1 to the first word of line 0. */
static void tell(void) {
    const sci_entry entry = { (uint8_t)(told % NODES), 1, 0, told, { SCI_FETCH_ADD, 0, 0, 0, 0, 1 }, told, (uint64_t)told + 1 };
    sci_verdict verdict;
    expect(sci_scoreboard_tell(&board, &entry, &verdict));
    refused += verdict.kind != SCI_LAWFUL;
    told++;
}

/* Has node 0 take line 0, whose home it is. */
static void take_line(void) {
    size_t length;
    for (int i = 0; i < 2; i++) {
        expect(sci_node_open(&node[i], (uint8_t)i, 2, LINES, 2, SCI_MAX_OPERATIONS));
    }
    expect(sci_node_ask(&node[0], 0, SCI_MREAD, bytes, &length));
    expect(sci_node_serve(&node[0], bytes, length));
    expect(sci_node_take_answer(&node[0], bytes, &length));
    expect(sci_node_accept(&node[0], bytes, length));
}

static void close_all(void) {
    for (int i = 0; i < 2; i++) {
        expect(sci_node_close(&node[i]));
    }
    expect(sci_scoreboard_close(&board));
    told = 0;
}

/* The plain C gives the same bytes and the same packet as the library. */
static void compare(void) {
    uint8_t plain[SCI_PACKET_BYTES];
    sci_packet one = { 0 }, other = { 0 };
    expect(sci_packet_encode(&packet, bytes, &used));
    expect(plain_encode(&packet, plain, &used));
    refused += memcmp(bytes, plain, sizeof plain) != 0;
    expect(sci_packet_decode(bytes, sizeof bytes, &one, &used));
    expect(plain_decode(bytes, sizeof bytes, &other, &used));
    refused += memcmp(&one, &other, sizeof one) != 0;
}

/* The nanoseconds of processor time that a call takes, on average of this many. */
static double taken_by(void (*call)(void), long calls) {
    struct timespec begin, end;
    clock_gettime(CLOCK_PROCESS_CPUTIME_ID, &begin);
    for (long i = 0; i < calls; i++) {
        call();
    }
    clock_gettime(CLOCK_PROCESS_CPUTIME_ID, &end);
    return ((double)(end.tv_sec - begin.tv_sec) * 1e9 + (double)(end.tv_nsec - begin.tv_nsec)) / (double)calls;
}

int main(int count, char **arguments) {
    static const struct {
        const char *name;
        void (*call)(void);
        long most; /* calls of a try, or 0 if there may be any number */
    } measured[] = {
        { "sci_packet_encode, 88 bytes", encode, 0 },
        { "the same in plain C", encode_plain, 0 },
        { "sci_packet_decode, 88 bytes", decode, 0 },
        { "the same in plain C", decode_plain, 0 },
        { "sci_node_issue and sci_node_perform", operate, SCI_MAX_OPERATIONS },
        { "sci_node_ask that isn't enabled", ask_in_vain, 0 },
        { "sci_node_turn with nothing to do", turn, 0 },
        { "sci_node_held", held, 0 },
        { "sci_scoreboard_tell", tell, 0 },
    };
    const long calls = count > 1 ? atol(arguments[1]) : 1000000, tries = count > 2 ? atol(arguments[2]) : 5;
    compare();
    for (size_t i = 0; i < sizeof measured / sizeof *measured; i++) {
        const long made = measured[i].most != 0 && measured[i].most < calls ? measured[i].most : calls;
        double least = 0;
        for (long j = 0; j < tries; j++) {
            take_line();
            expect(sci_scoreboard_open(&board, NODES, LINES));
            expect(sci_packet_encode(&packet, bytes, &used));
            const double now = taken_by(measured[i].call, made);
            least = j == 0 || now < least ? now : least;
            close_all();
        }
        printf("%-38s %8.1f\n", measured[i].name, least);
    }
    return refused != 0;
}
