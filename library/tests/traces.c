/* What sci_trace_judge says of small traces, whose verdicts are plain: each kind of verdict and of witness, last words, times, and
** structs that say no trace. */
#include "expect.h"

#define ANY 0, UINT64_MAX

static sci_access load(uint8_t processor, uint64_t address, uint64_t word, uint64_t id) {
    return (sci_access){ processor, SCI_ACCESS_LOAD, 7, 7, address, word, 7, ANY, id };
}

static sci_access put(uint8_t processor, uint64_t address, uint64_t word, uint64_t id) {
    return (sci_access){ processor, SCI_ACCESS_STORE, 7, 7, address, 7, word, ANY, id };
}

static sci_access swap(uint8_t processor, uint64_t address, uint64_t read, uint64_t wrote, uint64_t id) {
    return (sci_access){ processor, SCI_ACCESS_ATOMIC, 7, 7, address, read, wrote, ANY, id };
}

static const sci_trace_way plain = { 0, 0, 1000000 }, ordered = { 0, 1, 1000000 }, timed = { 1, 0, 1000000 };
static sci_judgement found;
static uint64_t ids[8];

/* A trace of this many operations, without last words. */
static void judge(const sci_access *accesses, size_t count, const sci_trace_way *way) {
    const sci_last_word none = { 0, 0 };
    memset(&found, 7, sizeof found);
    memset(ids, 7, sizeof ids);
    EXPECT(sci_trace_judge(accesses, count, &none, 0, way, &found, ids, 8), SCI_OK);
}

/* Whether the first numbers are these, and the one after them is as it was. */
static int named(size_t count, uint64_t first, uint64_t second) {
    return found.named == count && (count < 1 || ids[0] == first) && (count < 2 || ids[1] == second) && ids[count] == 0x0707070707070707;
}

static void coherent(void) {
    const sci_access handed[] = { put(0, 8, 5, 0), load(1, 8, 5, 1), swap(1, 8, 5, 6, 2), load(0, 8, 6, 3) };
    judge(handed, 4, &ordered);
    CHECK(found.kind == SCI_COHERENT && found.freedom == SCI_VERSIONS_FORCED && found.consistency == SCI_CONSISTENCY_SEQUENTIAL);
    CHECK(found.witness == SCI_WITNESS_NONE && found.address == 0 && named(0, 0, 0));
    judge(handed, 0, &ordered);
    CHECK(found.kind == SCI_COHERENT && found.consistency == SCI_CONSISTENCY_SEQUENTIAL);
    const sci_access apart[] = { put(0, 8, 5, 0), put(1, 8, 6, 1) };
    judge(apart, 2, &plain);
    CHECK(found.kind == SCI_COHERENT && found.freedom == SCI_VERSIONS_FREE && found.consistency == SCI_CONSISTENCY_UNASKED);
}

/* The store buffer: coherent at each address, and without an order. */
static void no_order(void) {
    const sci_access buffer[] = { put(0, 8, 1, 10), load(0, 16, 0, 11), put(1, 16, 1, 12), load(1, 8, 0, 13) };
    judge(buffer, 4, &plain);
    CHECK(found.kind == SCI_COHERENT && found.consistency == SCI_CONSISTENCY_UNASKED && named(0, 0, 0));
    judge(buffer, 4, &ordered);
    CHECK(found.kind == SCI_COHERENT && found.consistency == SCI_CONSISTENCY_CYCLE && found.named == 4);
    for (int i = 0; i < 4; i++) {
        CHECK(ids[i] >= 10 && ids[i] <= 13 && ids[i] != ids[(i + 1) % 4]);
    }
}

static void witnesses(void) {
    const sci_access unwritten[] = { put(0, 8, 5, 20), load(1, 8, 6, 21) };
    judge(unwritten, 2, &ordered);
    CHECK(found.kind == SCI_NOT_COHERENT && found.address == 8 && found.witness == SCI_WITNESS_UNWRITTEN && named(1, 21, 0));
    CHECK(found.freedom == 0 && found.consistency == SCI_CONSISTENCY_UNASKED);
    const sci_access early[] = { load(0, 16, 5, 22), put(0, 16, 5, 23) };
    judge(early, 2, &plain);
    CHECK(found.kind == SCI_NOT_COHERENT && found.address == 16 && found.witness == SCI_WITNESS_EARLY && named(2, 22, 23));
    const sci_access stale[] = { put(0, 8, 5, 24), load(1, 8, 5, 25), load(1, 8, 0, 26) };
    judge(stale, 3, &plain);
    CHECK(found.kind == SCI_NOT_COHERENT && found.address == 8 && found.witness == SCI_WITNESS_CIRCLE && found.named > 1);
}

static void last_words(void) {
    const sci_access stores[] = { put(0, 8, 5, 0), put(0, 8, 6, 1) };
    const sci_last_word last[] = { { 8, 6 }, { 8, 6 } }, lost[] = { { 8, 5 } }, unwritten[] = { { 8, 7 } }, odd[] = { { 8, 6 }, { 16, 0 }, { 8, 5 } };
    EXPECT(sci_trace_judge(stores, 2, last, 2, &plain, &found, ids, 8), SCI_OK);
    CHECK(found.kind == SCI_COHERENT);
    EXPECT(sci_trace_judge(stores, 2, lost, 1, &plain, &found, ids, 8), SCI_OK);
    CHECK(found.kind == SCI_NOT_COHERENT && found.witness == SCI_WITNESS_CIRCLE);
    memset(ids, 7, sizeof ids);
    EXPECT(sci_trace_judge(stores, 2, unwritten, 1, &plain, &found, ids, 8), SCI_OK);
    CHECK(found.kind == SCI_NOT_COHERENT && found.witness == SCI_WITNESS_UNWRITTEN_LAST && named(0, 0, 0));
    memset(&found, 7, sizeof found);
    EXPECT(sci_trace_judge(stores, 2, odd, 3, &plain, &found, ids, 8), SCI_RANGE);
    CHECK(found.kind == 0x07070707);
}

/* A load that began when the store had ended, and read what was there before. */
static void times(void) {
    sci_access late[] = { put(0, 8, 5, 0), load(1, 8, 0, 1) };
    late[0].begin = 100;
    late[0].end = 110;
    late[1].begin = 120;
    late[1].end = 125;
    judge(late, 2, &plain);
    CHECK(found.kind == SCI_COHERENT);
    judge(late, 2, &timed);
    CHECK(found.kind == SCI_NOT_COHERENT && found.address == 8);
    late[1].end = 119;
    EXPECT(sci_trace_judge(late, 2, &(sci_last_word){ 0, 0 }, 0, &plain, &found, ids, 8), SCI_RANGE);
}

/* What is out of range, and less room than operations are named. */
static void refused(void) {
    const sci_last_word none = { 0, 0 };
    sci_access stale[] = { put(0, 8, 5, 24), load(1, 8, 5, 25), load(1, 8, 0, 26) };
    memset(&found, 7, sizeof found);
    memset(ids, 7, sizeof ids);
    stale[1].processor = SCI_MAX_NODES;
    EXPECT(sci_trace_judge(stale, 3, &none, 0, &plain, &found, ids, 8), SCI_RANGE);
    stale[1].processor = 1;
    stale[1].kind = 3;
    EXPECT(sci_trace_judge(stale, 3, &none, 0, &plain, &found, ids, 8), SCI_RANGE);
    CHECK(found.kind == 0x07070707 && ids[0] == 0x0707070707070707);
    stale[1].kind = SCI_ACCESS_LOAD;
    EXPECT(sci_trace_judge(stale, 3, &none, 0, &plain, &found, ids, 1), SCI_OK);
    CHECK(found.kind == SCI_NOT_COHERENT && found.named > 1 && ids[0] >= 24 && ids[0] <= 26 && ids[1] == 0x0707070707070707);
    memset(ids, 7, sizeof ids);
    EXPECT(sci_trace_judge(stale, 3, &none, 0, &plain, &found, ids, 0), SCI_OK);
    CHECK(found.kind == SCI_NOT_COHERENT && found.named > 1 && ids[0] == 0x0707070707070707);
}

int main(void) {
    coherent();
    no_order();
    witnesses();
    last_words();
    times();
    refused();
    return failed;
}
