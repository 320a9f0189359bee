/* The structs lie as the library has them: sizes and offsets, and the sizes that the library itself reports. */
#include <stdio.h>

#include "lichenknit.h"

#define AT(type, member, offset) _Static_assert(offsetof(type, member) == (offset), #type "." #member)
#define SIZE(type, size) _Static_assert(sizeof(type) == (size), #type)

SIZE(sci_op, 24);
AT(sci_op, act, 0);
AT(sci_op, line, 1);
AT(sci_op, word, 2);
AT(sci_op, arg, 8);
AT(sci_op, datum, 16);
SIZE(sci_event, 32);
AT(sci_event, kind, 0);
AT(sci_event, node, 1);
AT(sci_event, from, 2);
AT(sci_event, line, 3);
AT(sci_event, ask, 4);
AT(sci_event, op, 8);
SIZE(sci_packet, 96);
AT(sci_packet, target, 0);
AT(sci_packet, command, 2);
AT(sci_packet, source, 4);
AT(sci_packet, control, 6);
AT(sci_packet, line, 8);
AT(sci_packet, identifier, 16);
AT(sci_packet, has_contents, 18);
AT(sci_packet, reserved, 20);
AT(sci_packet, version, 24);
AT(sci_packet, words, 32);
SIZE(sci_stamped, 72);
AT(sci_stamped, version, 0);
AT(sci_stamped, words, 8);
SIZE(sci_entry, 48);
AT(sci_entry, node, 0);
AT(sci_entry, has_word, 1);
AT(sci_entry, reserved, 2);
AT(sci_entry, serial, 4);
AT(sci_entry, op, 8);
AT(sci_entry, word, 32);
AT(sci_entry, version, 40);
SIZE(sci_verdict, 20);
AT(sci_verdict, kind, 0);
AT(sci_verdict, line, 4);
AT(sci_verdict, has_entry, 8);
AT(sci_verdict, node, 12);
AT(sci_verdict, serial, 16);
SIZE(sci_text_fault, 16);
AT(sci_text_fault, line, 0);
AT(sci_text_fault, kind, 8);
SIZE(sci_held, 80);
AT(sci_held, state, 0);
AT(sci_held, waits, 1);
AT(sci_held, has_contents, 2);
AT(sci_held, forward, 4);
AT(sci_held, backward, 6);
AT(sci_held, contents, 8);
SIZE(sci_home, 80);
AT(sci_home, state, 0);
AT(sci_home, has_contents, 1);
AT(sci_home, head, 2);
AT(sci_home, contents, 8);
SIZE(sci_seen, 152);
AT(sci_seen, has_packet, 0);
AT(sci_seen, has_entry, 4);
AT(sci_seen, packet, 8);
AT(sci_seen, entry, 104);
SIZE(sci_want, 4);
AT(sci_want, kind, 0);
AT(sci_want, line, 1);
AT(sci_want, ask, 2);
SIZE(sci_dead, 12);
AT(sci_dead, count, 0);
AT(sci_dead, place, 4);
AT(sci_dead, obstacle, 8);
SIZE(sci_access, 56);
AT(sci_access, processor, 0);
AT(sci_access, kind, 1);
AT(sci_access, address, 8);
AT(sci_access, read, 16);
AT(sci_access, wrote, 24);
AT(sci_access, begin, 32);
AT(sci_access, end, 40);
AT(sci_access, id, 48);
SIZE(sci_last_word, 16);
AT(sci_last_word, address, 0);
AT(sci_last_word, word, 8);
SIZE(sci_trace_way, 16);
AT(sci_trace_way, timed, 0);
AT(sci_trace_way, ordered, 4);
AT(sci_trace_way, limit, 8);
SIZE(sci_judgement, 32);
AT(sci_judgement, kind, 0);
AT(sci_judgement, freedom, 4);
AT(sci_judgement, consistency, 8);
AT(sci_judgement, witness, 12);
AT(sci_judgement, address, 16);
AT(sci_judgement, named, 24);
SIZE(sci_machine, 16);
AT(sci_machine, at, 0);
AT(sci_machine, live, 8);
SIZE(sci_node, 16);
SIZE(sci_logs, 16);

int main(void) {
    const uint64_t here[17] = {
        sizeof(sci_op),         sizeof(sci_event),   sizeof(sci_packet), sizeof(sci_stamped), sizeof(sci_entry), sizeof(sci_verdict),
        sizeof(sci_text_fault), sizeof(sci_machine), sizeof(sci_held),   sizeof(sci_home),    sizeof(sci_seen),  sizeof(sci_want),
        sizeof(sci_dead),       sizeof(sci_access),  sizeof(sci_last_word), sizeof(sci_trace_way), sizeof(sci_judgement),
    };
    uint64_t there[17] = { 0, 0, 0, 0, 0, 0, 0, 0, 0, 0, 0, 0, 0, 0, 0, 0, 0 };
    sci_layout(there);
    sci_layout_more(there + 8);
    for (int i = 0; i < 17; i++) {
        if (here[i] != there[i]) {
            printf("struct %d has %llu bytes here and %llu there\n", i, (unsigned long long)here[i], (unsigned long long)there[i]);
            return 1;
        }
    }
    return sci_version() == SCI_VERSION_MAJOR * 65536u + SCI_VERSION_MINOR ? 0 : 2;
}
