/* A trace without versions: two processors each store to an address and then load from the other one, and both find what was there
** before. At each address that is coherent, and no order of the four operations explains it: each processor has a store buffer.
**
**     cc -o trace trace.c $(pkg-config --cflags --libs lichenknit) && ./trace
*/
#include <stdio.h>

#include "lichenknit.h"

static const char *const texts[] = { "processor 0 stores 1 at 8", "processor 0 loads 0 at 16", "processor 1 stores 1 at 16",
                                     "processor 1 loads 0 at 8" };

int main(void) {
    const sci_access accesses[] = {
        { .processor = 0, .kind = SCI_ACCESS_STORE, .address = 8, .wrote = 1, .end = UINT64_MAX, .id = 0 },
        { .processor = 0, .kind = SCI_ACCESS_LOAD, .address = 16, .read = 0, .end = UINT64_MAX, .id = 1 },
        { .processor = 1, .kind = SCI_ACCESS_STORE, .address = 16, .wrote = 1, .end = UINT64_MAX, .id = 2 },
        { .processor = 1, .kind = SCI_ACCESS_LOAD, .address = 8, .read = 0, .end = UINT64_MAX, .id = 3 },
    };
    const sci_last_word last[] = { { .address = 8, .word = 1 }, { .address = 16, .word = 1 } };
    const sci_trace_way way = { .timed = 0, .ordered = 1, .limit = 1000000 };
    sci_judgement found;
    uint64_t ids[8];
    const sci_status status = sci_trace_judge(accesses, 4, last, 2, &way, &found, ids, 8);
    if (status != SCI_OK) {
        fprintf(stderr, "judge: %s\n", sci_status_text(status));
        return 1;
    }
    printf("coherent: %d, without an order: %d\n", found.kind == SCI_COHERENT, found.consistency == SCI_CONSISTENCY_CYCLE);
    for (uint64_t i = 0; i < found.named && i < 8; i++) {
        printf("%s before %s\n", texts[ids[i]], texts[ids[(i + 1) % found.named]]);
    }
    return 0;
}
