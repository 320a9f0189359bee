/* What the library needs beside the proved part: the heap, and texts of statuses. */
#include <stdlib.h>

#include "lichenknit.h"

/* What the proved part's calls for memory answer: ok is 1 if at leads to the block. */
struct room {
    uint64_t ok;
    void *at;
};

static char nothing;

static struct room room_at(void *at) {
    struct room room = { at != NULL, at != NULL ? at : &nothing };
    return room;
}

struct room rattle_alloc(size_t size, size_t align);
struct room rattle_realloc(void *at, size_t old, size_t size, size_t align);
void rattle_dealloc(void *at, size_t size, size_t align);

struct room rattle_alloc(size_t size, size_t align) {
    return room_at(malloc(size != 0 ? size : align));
}

struct room rattle_realloc(void *at, size_t old, size_t size, size_t align) {
    (void)old;
    return room_at(realloc(at, size != 0 ? size : align));
}

void rattle_dealloc(void *at, size_t size, size_t align) {
    (void)size;
    (void)align;
    free(at);
}

const char *sci_status_text(sci_status status) {
    static const char *const texts[] = {
        "done",
        "memory was refused",
        "not enabled, or not there",
        "a number is outside its limits",
        "the object is empty, open already or of another kind",
        "the log, the node or the room is full",
        "fewer bytes or words than the packet has",
        "no packet has this command",
        "the offset is no multiple of 64",
        "a node or an identifier that the packet can't have",
        "the text has a fault",
    };
    return status < sizeof texts / sizeof texts[0] ? texts[status] : "no such status";
}

/* The name at a place of a table, or "?". */
#define NAME(table, place) ((place) < sizeof(table) / sizeof(table)[0] ? (table)[place] : "?")

const char *sci_status_name(sci_status status) {
    static const char *const names[] = {
        "SCI_OK",    "SCI_NO_MEMORY", "SCI_NOT_ENABLED",     "SCI_RANGE",      "SCI_MISUSE",         "SCI_FULL",
        "SCI_SHORT", "SCI_UNKNOWN_COMMAND", "SCI_BAD_OFFSET", "SCI_BAD_IDENTIFIER", "SCI_TEXT",
    };
    return NAME(names, status);
}

const char *sci_command_name(uint32_t command) {
    static const char *const requests[] = {
        "mread", "cread", "purge", "roll", "wback", "setback", "fread", "claim", "clear",
    };
    static const char *const answers[] = {
        "mdata", "mgone", "cdata", "purged", "rolled", "wbok", "wbno", "told", "busy", "fdata",
    };
    return command > SCI_CMD_CLEAR ? NAME(answers, command - SCI_CMD_MDATA) : NAME(requests, command - SCI_CMD_MREAD);
}

const char *sci_state_name(uint32_t state) {
    static const char *const names[] = {
        "Out",      "Asking",   "Joining",   "FreshJoining", "Head",    "FreshHead", "Below",
        "Purging",  "Claiming", "Clearing",  "Returning",    "Rolling", "Telling",   "Fading",
    };
    return NAME(names, state);
}

const char *sci_home_state_name(uint32_t state) {
    static const char *const names[] = { "HOME", "FRESH", "GONE" };
    return NAME(names, state);
}

const char *sci_obstacle_name(uint32_t obstacle) {
    static const char *const names[] = {
        "enabled",         "no-such-node",  "no-such-sender", "no-such-line",      "no-such-word",
        "already-pending", "no-issue-left", "nothing-pending", "not-allowed",      "not-asked",
        "no-slot",         "nothing-under-way", "answer-waits", "setback-comes",   "no-answer-waits",
    };
    return NAME(names, obstacle);
}

const char *sci_verdict_name(uint32_t kind) {
    static const char *const names[] = {
        "lawful", "version-twice", "version-missing", "wrong-reply", "out-of-order", "last-differs",
    };
    return NAME(names, kind);
}
