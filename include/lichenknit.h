/** @file
** Lichenknit as a C library: packets, machines with coherent caches, and logs with their checkers.
**
** Each function is a proved one, but for those that give texts and names. The text above it names the call of the crates that
** it makes; the README of crates/sci_c says what is proved.
**
** WHAT THE CALLER PROMISES. Nothing checks these promises.
**
**   - No pointer is NULL, not even to an empty buffer. Each is aligned as its type asks, and leads to as much memory as the
**     type or the length beside it says. No two arguments of a call overlap.
**   - An object (sci_machine, sci_node, sci_logs, sci_scoreboard) is all zero before its first use: SCI_INIT, or static memory. Only this
**     library changes it. It may be moved, byte by byte, if the old place is not used again: two copies would both own what it
**     keeps. When it goes out of use it is closed.
**   - One thread at a time uses an object, also in a call that takes it as const: const says that the object stays as it was, and
**     not that two threads may look at it at once, since the proofs take an object as the call's own. Two objects share nothing.
**   - No function is called from a signal handler, or in the child of a fork of a process with threads.
**   - malloc, realloc and free come from one allocator, which aligns a block to 16 bytes.
**
** All else is looked at. Any number may be passed in any field, and what can't be done is answered by a status.
**
** MEMORY AND STACK. A call takes memory only if SCI_NO_MEMORY is among its statuses, and at most 8 KB of stack.
**
** TIME. On one x86-64 processor an operation that is issued and performed took 59 ns, a turn with nothing to do and a request that isn't
** enabled 16 ns each, and a packet of 88 bytes 14 ns to write and 20 ns to read (`make calls`).
**
** THE PROCESSOR. The library that `make library` builds needs an x86-64 processor of level v2, with SSE4.2, and doesn't look for
** one: an older processor ends the program by SIGILL. That of an archive by `make dist` needs any x86-64 processor.
**
** STATUSES. Unless a function says otherwise, a call that answers another status than SCI_OK leaves the object and all that
** its other arguments lead to as they were. What is const stays the same in any case. Where more than one status would fit,
** they come in this order: SCI_MISUSE, the faults of a packet's bytes, SCI_RANGE, SCI_NOT_ENABLED, SCI_FULL, SCI_NO_MEMORY. The
** functions that read a struct of a packet have an order of their own. sci_logs_order, sci_logs_explain, sci_machine_sharing and those
** that end in _write need memory to know how much room they want, so SCI_FULL comes last there. sci_logs_explain, sci_logs_wanted,
** sci_logs_read, sci_machine_replay and sci_trace_judge answer what they meet first.
*/
#ifndef LICHENKNIT_H
#define LICHENKNIT_H

#include <stddef.h>
#include <stdint.h>

#ifdef __cplusplus
extern "C" {
#endif

/** The version of this header: the first number. sci_version gives that of the library. */
#define SCI_VERSION_MAJOR 0
/** The second number. */
#define SCI_VERSION_MINOR 1

/** What a call answers. The numbers are of a fixed width, which those of an enum are not. */
typedef uint32_t sci_status;

/** The numbers of statuses. */
enum sci_status_number {
    SCI_OK = 0,              /**< Done. */
    SCI_NO_MEMORY = 1,       /**< malloc or realloc refused memory. The call can be made again. */
    SCI_NOT_ENABLED = 2,     /**< The event is not enabled, or what was asked for is not there. */
    SCI_RANGE = 3,           /**< A number is outside its limits. */
    SCI_MISUSE = 4,          /**< The object is empty where one is wanted, open where none is, or of another kind. */
    SCI_FULL = 5,            /**< A log or a node has as many operations as it may, or the caller's room is too small. */
    SCI_SHORT = 6,           /**< There are fewer bytes or words than the packet has. */
    SCI_UNKNOWN_COMMAND = 7, /**< No packet has this command. */
    SCI_BAD_OFFSET = 8,      /**< The offset of the packet is no multiple of 64. */
    SCI_BAD_IDENTIFIER = 9,  /**< The target, the source or the identifier is one that the packet can't have. */
    SCI_TEXT = 10            /**< The text is no log, or no schedule. The fault says where and why. */
};

/** Limits. */
enum sci_limit {
    SCI_MAX_NODES = 16,
    SCI_MAX_LINES = 64,
    SCI_MAX_SLOTS = 8,
    SCI_MAX_OPERATIONS = 65536, /**< of a node */
    SCI_LINE_WORDS = 8,
    SCI_PACKET_BYTES = 88, /**< the longest packet */
    SCI_PACKET_WORDS = 11,
    SCI_TURN_ROOM = 5,   /**< the packets that a turn may send beside an answer to each that has come */
    SCI_NO_NODE = 0xFFFF /**< the identifier that is no node */
};

/** @name Values
** @{ */

/** What an operation does, in sci_op.act. */
enum sci_act {
    SCI_LOAD = 0,
    SCI_STORE = 1,        /**< stores datum */
    SCI_MASK_SWAP = 2,    /**< takes the bits of datum where arg has a one */
    SCI_COMPARE_SWAP = 3, /**< becomes datum if the word is arg */
    SCI_FETCH_ADD = 4,    /**< adds datum */
    SCI_BOUNDED_ADD = 5,  /**< adds datum if the word isn't arg */
    SCI_WRAP_ADD = 6      /**< adds datum if the word isn't arg, and else becomes datum */
};

/** An operation on a word of a line. An operand that the act doesn't have isn't looked at. */
typedef struct sci_op {
    uint8_t act;
    uint8_t line;
    uint8_t word;
    uint8_t reserved; /**< not looked at; 0 where the library writes it */
    uint64_t arg;
    uint64_t datum;
} sci_op;

/** What an event is, in sci_event.kind. */
enum sci_event_kind {
    SCI_ISSUE = 0,   /**< the processor of node issues op */
    SCI_PERFORM = 1, /**< the pending operation of node on line is performed */
    SCI_ASK = 2,     /**< node sends a request of the kind ask about line */
    SCI_SERVE = 3,   /**< node serves the oldest request that came from from */
    SCI_REFUSE = 4,  /**< node answers that request as busy */
    SCI_REPLY = 5,   /**< node sends the answer that waits */
    SCI_ACCEPT = 6   /**< node accepts the oldest answer that came from from */
};

/** The kinds of requests, in sci_event.ask. */
enum sci_ask_kind {
    SCI_MREAD = 0,
    SCI_FREAD = 1,
    SCI_CREAD = 2,
    SCI_CLAIM = 3,
    SCI_CLEAR = 4,
    SCI_PURGE = 5,
    SCI_ROLL = 6,
    SCI_WBACK = 7,
    SCI_SETBACK = 8
};

/** An event of a machine. A field that the kind doesn't have isn't looked at. */
typedef struct sci_event {
    uint8_t kind;
    uint8_t node;
    uint8_t from;
    uint8_t line;
    uint8_t ask;
    sci_op op;
} sci_event;

/** A packet. has_contents is 1 if it carries version and words, and else 0. */
typedef struct sci_packet {
    uint16_t target;
    uint16_t command;
    uint16_t source;
    uint16_t control;
    uint64_t line; /**< below 2^42 */
    uint16_t identifier;
    uint16_t has_contents;
    uint32_t reserved; /**< not looked at; 0 where the library writes it */
    uint64_t version;
    uint64_t words[SCI_LINE_WORDS];
} sci_packet;

/** The contents of a line, and the number of their version. */
typedef struct sci_stamped {
    uint64_t version;
    uint64_t words[SCI_LINE_WORDS];
} sci_stamped;

/** An entry of a log. has_word is 1 if the operation answered word, and 0 for a store. */
typedef struct sci_entry {
    uint8_t node;
    uint8_t has_word;
    uint16_t reserved; /**< not looked at; 0 where the library writes it */
    uint32_t serial;   /**< the number of the operation in the order of issue */
    sci_op op;
    uint64_t word;
    uint64_t version; /**< that a load read, or that the operation made */
} sci_entry;

/** The commands of packets, in sci_packet.command. The requests are below 0x100, the answers above. */
enum sci_command {
    SCI_CMD_MREAD = 0x001,
    SCI_CMD_CREAD = 0x002,
    SCI_CMD_PURGE = 0x003,
    SCI_CMD_ROLL = 0x004,
    SCI_CMD_WBACK = 0x005,
    SCI_CMD_SETBACK = 0x006,
    SCI_CMD_FREAD = 0x007,
    SCI_CMD_CLAIM = 0x008,
    SCI_CMD_CLEAR = 0x009,
    SCI_CMD_MDATA = 0x101,
    SCI_CMD_MGONE = 0x102,
    SCI_CMD_CDATA = 0x103,
    SCI_CMD_PURGED = 0x104,
    SCI_CMD_ROLLED = 0x105,
    SCI_CMD_WBOK = 0x106,
    SCI_CMD_WBNO = 0x107,
    SCI_CMD_TOLD = 0x108,
    SCI_CMD_BUSY = 0x109,
    SCI_CMD_FDATA = 0x10A
};

/** The states of a line in a node's cache, in sci_held.state (docs/PROTOCOL.md). */
enum sci_state {
    SCI_OUT = 0, /**< no entry */
    SCI_ASKING = 1,
    SCI_JOINING = 2,
    SCI_FRESH_JOINING = 3,
    SCI_HEAD = 4,
    SCI_FRESH_HEAD = 5,
    SCI_BELOW = 6,
    SCI_PURGING = 7,
    SCI_CLAIMING = 8,
    SCI_CLEARING = 9,
    SCI_RETURNING = 10,
    SCI_ROLLING = 11,
    SCI_TELLING = 12,
    SCI_FADING = 13
};

/** What a node's cache has of a line. */
typedef struct sci_held {
    uint8_t state;
    uint8_t waits;        /**< 1 if a request about the line is under way, and its answer is awaited */
    uint8_t has_contents; /**< 1 if the state has contents; else they are 0 */
    uint8_t reserved;     /**< 0 */
    uint16_t forward;     /**< the next entry, or the old head that is joined; SCI_NO_NODE if there is none */
    uint16_t backward;    /**< the entry before, or SCI_NO_NODE */
    sci_stamped contents;
} sci_held;

/** The states of a line's home, in sci_home.state. */
enum sci_home_state { SCI_HOME = 0, SCI_FRESH = 1, SCI_GONE = 2 };

/** What the home of a line knows. */
typedef struct sci_home {
    uint8_t state;
    uint8_t has_contents; /**< 1 if nobody may have written since; else the contents are 0 */
    uint16_t head;        /**< the head of the list, or SCI_NO_NODE */
    uint32_t reserved;    /**< 0 */
    sci_stamped contents;
} sci_home;

/** The lanes from one node to another. */
enum sci_lane { SCI_REQUESTS = 0, SCI_ANSWERS = 1 };

/** Why an event is not enabled: the first of these, in the order in which they are looked for. */
enum sci_obstacle {
    SCI_NO_OBSTACLE = 0,        /**< it is enabled */
    SCI_NO_SUCH_NODE = 1,
    SCI_NO_SUCH_SENDER = 2,     /**< a Serve, a Refuse or an Accept */
    SCI_NO_SUCH_LINE = 3,       /**< an Issue or an Ask */
    SCI_NO_SUCH_WORD = 4,       /**< an Issue */
    SCI_ALREADY_PENDING = 5,    /**< an Issue: an operation of the node is pending on the line */
    SCI_NO_ISSUE_LEFT = 6,      /**< an Issue: the node has issued as many operations as it may */
    SCI_NOTHING_PENDING = 7,    /**< a Perform */
    SCI_NOT_ALLOWED = 8,        /**< a Perform: the line's state doesn't allow the operation */
    SCI_NOT_ASKED = 9,          /**< an Ask: the line's state doesn't ask this kind */
    SCI_NO_SLOT = 10,           /**< an Ask: the line has no entry, and every version slot is taken */
    SCI_NOTHING_UNDER_WAY = 11, /**< a Serve, a Refuse or an Accept */
    SCI_ANSWER_WAITS = 12,      /**< a Serve or a Refuse: an answer of the node has to be sent first */
    SCI_SETBACK_COMES = 13,     /**< a Refuse: a setback isn't refused */
    SCI_NO_ANSWER_WAITS = 14    /**< a Reply */
};

/** What a step did: the packet that it sent or took, and the entry that it logged. What there is not is 0. */
typedef struct sci_seen {
    uint32_t has_packet;
    uint32_t has_entry;
    sci_packet packet;
    sci_entry entry;
} sci_seen;

/** The events of a schedule that weren't enabled when they came, and so changed nothing. All is 0 if there are none. */
typedef struct sci_dead {
    uint32_t count;
    uint32_t place;    /**< how many events of the schedule stand before the first of them */
    uint32_t obstacle; /**< what stood in the way of the first: a number of enum sci_obstacle */
} sci_dead;

/** What a node does next, in sci_want.kind. */
enum sci_want_kind {
    SCI_WANT_NOTHING = 0,
    SCI_WANT_PERFORM = 1, /**< the operation that is pending on line: sci_node_perform */
    SCI_WANT_ASK = 2      /**< a request of the kind ask about line: sci_node_ask */
};

/** What a node does next. A field that the kind doesn't have is 0. */
typedef struct sci_want {
    uint8_t kind;
    uint8_t line;
    uint8_t ask;
    uint8_t reserved; /**< 0 */
} sci_want;

/** What a node does with a request that has come. */
enum sci_decision {
    SCI_KEEP = 0,      /**< it stays where it is, and is looked at again in a later turn */
    SCI_TO_REFUSE = 1, /**< sci_node_refuse */
    SCI_TO_SERVE = 2   /**< sci_node_serve */
};

/** The kinds of verdicts, in sci_verdict.kind. */
enum sci_verdict_kind {
    SCI_LAWFUL = 0,
    SCI_VERSION_TWICE = 1,   /**< two operations made the same version */
    SCI_VERSION_MISSING = 2, /**< a version is 0 or too high */
    SCI_WRONG_REPLY = 3,     /**< a word isn't that of the version */
    SCI_OUT_OF_ORDER = 4,    /**< a node's entries aren't in the order of its log */
    SCI_LAST_DIFFERS = 5     /**< the last contents are others */
};

/** What a look for one order finds. */
enum sci_order_kind {
    SCI_ORDER = 0,   /**< there is one */
    SCI_CYCLE = 1,   /**< there is none, as a cycle of entries shows */
    SCI_UNLAWFUL = 2 /**< the logs aren't lawful */
};

/** What an audit finds: on which line, and the entry where the rule fails, if has_entry is 1. */
typedef struct sci_verdict {
    uint32_t kind;
    uint32_t line;
    uint32_t has_entry;
    uint32_t node;
    uint32_t serial;
} sci_verdict;

/** What an operation of a trace did, in sci_access.kind. */
enum sci_access_kind {
    SCI_ACCESS_LOAD = 0,  /**< it read read */
    SCI_ACCESS_STORE = 1, /**< it wrote wrote */
    SCI_ACCESS_ATOMIC = 2 /**< it read read and wrote wrote, with nothing between the two */
};

/** An operation of a trace without versions. A word that its kind doesn't have isn't looked at. */
typedef struct sci_access {
    uint8_t processor; /**< below 16 */
    uint8_t kind;
    uint16_t reserved;  /**< not looked at */
    uint32_t reserved2; /**< not looked at */
    uint64_t address;   /**< each one is a word of memory */
    uint64_t read;
    uint64_t wrote;
    uint64_t begin; /**< when it began, or 0 if that isn't known */
    uint64_t end;   /**< when it had ended, or UINT64_MAX if that isn't known; not before begin */
    uint64_t id;    /**< the caller's number of it: its place in the trace, say. A verdict names the operation by it */
} sci_access;

/** The last word at an address. */
typedef struct sci_last_word {
    uint64_t address;
    uint64_t word;
} sci_last_word;

/** How a trace is judged. */
typedef struct sci_trace_way {
    uint32_t timed;   /**< if it isn't 0, what ended before another operation at its address began has to stand before it */
    uint32_t ordered; /**< if it isn't 0, one order of all operations of a coherent trace is looked for */
    uint64_t limit;   /**< how many choices a search makes at most: for such an order, and at an address where a word is written twice */
} sci_trace_way;

/** What is found of a trace, in sci_judgement.kind. */
enum sci_judgement_kind {
    SCI_COHERENT = 0,     /**< some versions explain the operations at each address, and the last word there, if it is given */
    SCI_NOT_COHERENT = 1, /**< none explain those at sci_judgement.address */
    SCI_UNDECIDED = 2     /**< neither was found of those at sci_judgement.address */
};

/** Whether other versions explain a coherent trace as well, in sci_judgement.freedom. */
enum sci_freedom {
    SCI_VERSIONS_FORCED = 0, /**< none do, at any address */
    SCI_VERSIONS_FREE = 1,   /**< others do, at some address */
    SCI_VERSIONS_UNKNOWN = 2 /**< neither was found */
};

/** Whether one order of all operations explains a coherent trace, in sci_judgement.consistency. */
enum sci_consistency {
    SCI_CONSISTENCY_UNASKED = 0,
    SCI_CONSISTENCY_SEQUENTIAL = 1,     /**< one does */
    SCI_CONSISTENCY_CYCLE = 2,          /**< none does: each operation that is named comes before the next one, and the last before the first */
    SCI_CONSISTENCY_NOT_SEQUENTIAL = 3, /**< none does, as no other versions explain the trace */
    SCI_CONSISTENCY_UNKNOWN = 4
};

/** What shows that operations at an address aren't coherent, in sci_judgement.witness. */
enum sci_witness {
    SCI_WITNESS_NONE = 0,
    SCI_WITNESS_UNWRITTEN = 1,      /**< nobody wrote the word that the operation found */
    SCI_WITNESS_UNWRITTEN_LAST = 2, /**< nobody wrote the last word */
    SCI_WITNESS_EARLY = 3,          /**< the first operation leaves the word that the second one, a store, writes later */
    SCI_WITNESS_CIRCLE = 4,         /**< by these operations a word would stand before itself */
    SCI_WITNESS_ROUND = 5           /**< the first operation comes before itself: before the next one, and so on, and the last before it */
};

/** What the judge says of a trace. What the kind doesn't have is 0. */
typedef struct sci_judgement {
    uint32_t kind;
    uint32_t freedom;
    uint32_t consistency;
    uint32_t witness;
    uint64_t address;
    uint64_t named; /**< how many operations it names: those of the witness, or of the cycle */
} sci_judgement;

/** The kinds of faults of a text, in sci_text_fault.kind. */
enum sci_text_kind { SCI_TEXT_SYNTAX = 1, SCI_TEXT_RANGE = 2, SCI_TEXT_TOO_MANY = 3 };

/** The first fault of a text. line counts from 1. */
typedef struct sci_text_fault {
    uint64_t line;
    uint32_t kind;
    uint32_t reserved;
} sci_text_fault;

/** @} */

/** @name Objects
** @{ */

/** A machine, in the caller's memory. The four objects differ by name alone, so that a compiler finds a node where a machine is
** wanted. The library finds it too. */
typedef struct sci_machine {
    void *at;
    uint32_t live;
} sci_machine;

/** A node's controller, in the caller's memory. */
typedef struct sci_node {
    void *at;
    uint32_t live;
} sci_node;

/** Logs, in the caller's memory. */
typedef struct sci_logs {
    void *at;
    uint32_t live;
} sci_logs;

/** A scoreboard, in the caller's memory. */
typedef struct sci_scoreboard {
    void *at;
    uint32_t live;
} sci_scoreboard;

/** An empty object. */
#define SCI_INIT { 0, 0 }

/** @} */

/** @name The library
** @{ */

/** SCI_VERSION_MAJOR * 65536 + SCI_VERSION_MINOR of the library. */
uint32_t sci_version(void);

/** Writes the sizes of sci_op, sci_event, sci_packet, sci_stamped, sci_entry, sci_verdict, sci_text_fault and of an object, as
** the library has them. */
void sci_layout(uint64_t sizes[8]);

/** The same of sci_held, sci_home, sci_seen, sci_want, sci_dead, sci_access, sci_last_word, sci_trace_way and sci_judgement. */
void sci_layout_more(uint64_t sizes[9]);

/** A short text in English, also for a number that is no status. It is static. */
const char *sci_status_text(sci_status status);

/** The name of a status: "SCI_RANGE", say. It is static, and "?" stands for a number that has none, as with the names below. */
const char *sci_status_name(sci_status status);

/** The name of a packet's command, as the programs print it: "mread". */
const char *sci_command_name(uint32_t command);

/** The name of a state of a cache: "FreshHead". */
const char *sci_state_name(uint32_t state);

/** The name of a state of a home: "GONE". */
const char *sci_home_state_name(uint32_t state);

/** The name of an obstacle: "no-slot". */
const char *sci_obstacle_name(uint32_t obstacle);

/** The name of a verdict: "wrong-reply". */
const char *sci_verdict_name(uint32_t kind);

/** @} */

/** @name Packets
** @{ */

/** Reads the packet that the bytes begin with, and how many bytes it has: 16, or 88 with contents. Bytes after it aren't looked
** at. Contents that the packet doesn't carry are 0 (sci_packets::decode).
**
**   - SCI_OK               packet and used are written.
**   - SCI_SHORT            There are fewer than 16 bytes, or fewer than 88 where contents follow.
**   - SCI_UNKNOWN_COMMAND, SCI_BAD_OFFSET, SCI_BAD_IDENTIFIER
**                          The first fault of the bytes, in this order. Contents that are missing come last. */
sci_status sci_packet_decode(const uint8_t *bytes, size_t length, sci_packet *packet, size_t *used);

/** Writes the packet over the first bytes, and how many: 16, or 88 with contents. The bytes after it stay
** (sci_packets::encode).
**
**   - SCI_OK               bytes and used are written.
**   - SCI_RANGE            line is 2^42 or more, or has_contents is above 1.
**   - SCI_UNKNOWN_COMMAND, SCI_BAD_IDENTIFIER
**                          The first fault of its words, in this order.
**   - SCI_SHORT            The command carries contents, and has_contents is 0.
**   - SCI_RANGE            has_contents is 1, and the command carries none. */
sci_status sci_packet_encode(const sci_packet *packet, uint8_t bytes[SCI_PACKET_BYTES], size_t *used);

/** The same for words: each eight bytes are one word, the highest byte first. A packet has 2 words, or 11 with contents
** (sci_packets::from_words and to_words). The statuses are those of sci_packet_decode and sci_packet_encode. */
sci_status sci_packet_from_words(const uint64_t *words, size_t length, sci_packet *packet, size_t *used);

/** Writes a packet as words (sci_packets::to_words). */
sci_status sci_packet_to_words(const sci_packet *packet, uint64_t words[SCI_PACKET_WORDS], size_t *used);

/** @} */

/** @name Lines of texts
** As the programs write and read them (docs/TEXTS.md). A line ends in a line feed, and no zero ends it. The bytes after it stay.
** @{ */

/** Writes the line of a packet, as scimem decode prints it, over the first bytes, and how many: "mread to 0 from 1 control 0 line 2"
** (sci_command::push_packet).
**
**   - SCI_OK          text and used are written.
**   - SCI_FULL        The line is longer than room. used says how long; text is as it was.
**   - SCI_NO_MEMORY
**   - others          The struct says no packet: those of sci_packet_encode. */
sci_status sci_packet_write(const sci_packet *packet, uint8_t *text, size_t room, size_t *used);

/** Writes the line of an event in a schedule over the first bytes, and how many: "ask 1 0 mread". What the kind doesn't have isn't
** written (sci_text::push_event_line).
**
**   - SCI_OK          text and used are written.
**   - SCI_RANGE       There is no such event: kind, act or ask is outside its table.
**   - SCI_FULL        The line is longer than room. used says how long; text is as it was.
**   - SCI_NO_MEMORY */
sci_status sci_event_write(const sci_event *event, uint8_t *text, size_t room, size_t *used);

/** Writes the line of a machine's size, with which a schedule begins: "machine 2 4 2" (sci_text::push_machine_line). So this line
** and those of the events that a machine made are a schedule, which sci_machine_replay and scimem replay follow.
**
**   - SCI_OK          text and used are written.
**   - SCI_RANGE       Not 1 to 16 nodes, 1 to 64 lines, or 1 to 8 slots.
**   - SCI_FULL        The line is longer than room. used says how long; text is as it was.
**   - SCI_NO_MEMORY */
sci_status sci_size_write(uint8_t nodes, uint8_t lines, uint8_t slots, uint8_t *text, size_t room, size_t *used);

/** Writes the line of an entry in a log: "0 7 store 0 3 42 = - @1" (sci_text::push_entry).
**
**   - SCI_OK          text and used are written.
**   - SCI_RANGE       act is outside its table, or has_word is not 0 for a store and 1 for any other operation.
**   - SCI_FULL        The line is longer than room. used says how long; text is as it was.
**   - SCI_NO_MEMORY */
sci_status sci_entry_write(const sci_entry *entry, uint8_t *text, size_t room, size_t *used);

/** @} */

/** @name Machines
** All nodes, and the packets between them. A machine is coherent after every call.
** @{ */

/** Puts a machine of this size into an empty object. No line was touched. Each node may issue limit operations
** (sci_core::Machine::new).
**
**   - SCI_OK          The object keeps the machine, until sci_machine_close.
**   - SCI_MISUSE      The object isn't empty.
**   - SCI_RANGE       Not 1 to 16 nodes, 1 to 64 lines, 1 to 8 slots, or a limit of 1 to 65,536.
**   - SCI_NO_MEMORY */
sci_status sci_machine_open(sci_machine *machine, uint8_t nodes, uint8_t lines, uint8_t slots, uint32_t limit);

/** Lets the machine go, and leaves the object empty: all zero. An empty object stays empty.
**
**   - SCI_OK
**   - SCI_MISUSE      The object keeps something else. */
sci_status sci_machine_close(sci_machine *machine);

/** Applies an event (Machine::apply).
**
**   - SCI_OK          The machine has made the event.
**   - SCI_NOT_ENABLED The event is not enabled in the machine's state.
**   - SCI_RANGE       There is no such event: kind, act or ask is outside its table.
**   - SCI_NO_MEMORY   Only for SCI_ASK and SCI_REPLY. The event is enabled.
**   - SCI_MISUSE      The object keeps no machine. */
sci_status sci_machine_step(sci_machine *machine, const sci_event *event);

/** Applies an event as sci_machine_step does, and gives the packet that it sent or took, and the entry that it logged
** (Machine::apply). The statuses are those of sci_machine_step. */
sci_status sci_machine_step_seen(sci_machine *machine, const sci_event *event, sci_seen *seen);

/** Gives why an event is not enabled: a number of enum sci_obstacle (Machine::obstacle_to).
**
**   - SCI_OK          obstacle is SCI_NO_OBSTACLE exactly if the event is enabled.
**   - SCI_RANGE       There is no such event: kind, act or ask is outside its table.
**   - SCI_MISUSE      The object keeps no machine. */
sci_status sci_machine_obstacle(const sci_machine *machine, const sci_event *event, uint32_t *obstacle);

/** Puts the machine where a schedule leads into an empty object: its events are applied in the order of the text to a machine of the
** size in its first line, in which no line was touched, and each node of which may issue limit operations. An event that isn't
** enabled when it comes changes nothing, and dead says how many there are, and which is the first (sci_text::schedule_of,
** Machine::step and DeadEvents).
**
**   - SCI_OK          The object keeps the machine, until sci_machine_close, and dead is written. fault is as it was.
**   - SCI_TEXT        The text is no schedule: fault is written, and the object stays empty.
**   - SCI_RANGE       limit is not 1 to 65,536.
**   - SCI_MISUSE      The object isn't empty.
**   - SCI_NO_MEMORY */
sci_status sci_machine_replay(
    sci_machine *machine, const uint8_t *text, size_t length, uint32_t limit, sci_dead *dead, sci_text_fault *fault);

/** Puts a copy of the machine into an empty object (Machine::try_clone).
**
**   - SCI_OK          copy keeps it, until sci_machine_close. The two share nothing.
**   - SCI_MISUSE      machine keeps no machine, or copy isn't empty.
**   - SCI_NO_MEMORY */
sci_status sci_machine_clone(const sci_machine *machine, sci_machine *copy);

/** Reads what the cache of a node has of a line (Node::held).
**
**   - SCI_OK
**   - SCI_RANGE       The machine has no such node or line.
**   - SCI_MISUSE      The object keeps no machine. */
sci_status sci_machine_held(const sci_machine *machine, uint8_t node, uint8_t line, sci_held *held);

/** Reads what the home of a line knows, if it is at this node (Node::home). The home of line l is at node l modulo the number of
** nodes.
**
**   - SCI_OK
**   - SCI_RANGE       The machine has no such node or line.
**   - SCI_NOT_ENABLED The home is at another node.
**   - SCI_MISUSE      The object keeps no machine. */
sci_status sci_machine_home(const sci_machine *machine, uint8_t node, uint8_t line, sci_home *home);

/** Gives the operation that is pending on a line at a node, and its serial, as sci_node_pending does (Node::pending).
**
**   - SCI_OK
**   - SCI_RANGE       The machine has no such node.
**   - SCI_NOT_ENABLED None is pending there.
**   - SCI_MISUSE      The object keeps no machine. */
sci_status sci_machine_pending(const sci_machine *machine, uint8_t node, uint8_t line, sci_op *op, uint32_t *serial);

/** Reads the answer that waits at a node to be sent (Node::waiting).
**
**   - SCI_OK
**   - SCI_RANGE       The machine has no such node.
**   - SCI_NOT_ENABLED No answer waits.
**   - SCI_MISUSE      The object keeps no machine. */
sci_status sci_machine_answer(const sci_machine *machine, uint8_t node, sci_packet *packet);

/** Reads the packet at a place of a lane from a node to a node. The oldest is at place 0. lane is SCI_REQUESTS or SCI_ANSWERS
** (Machine::lane).
**
**   - SCI_OK
**   - SCI_RANGE       There is no such lane.
**   - SCI_NOT_ENABLED The lane has no more packets.
**   - SCI_MISUSE      The object keeps no machine. */
sci_status sci_machine_packet(const sci_machine *machine, uint32_t lane, uint8_t from, uint8_t to, size_t place, sci_packet *packet);

/** Writes the sharing list of a line over the first bytes, and how many nodes it has: from the home's head along the links of its
** members, each node once (Machine::sharing_list). SCI_MAX_NODES bytes are enough.
**
**   - SCI_OK          nodes and used are written.
**   - SCI_RANGE       The machine has no such line.
**   - SCI_FULL        The list is longer than room. used says how long; nodes is as it was.
**   - SCI_NO_MEMORY
**   - SCI_MISUSE      The object keeps no machine. */
sci_status sci_machine_sharing(const sci_machine *machine, uint8_t line, uint8_t *nodes, size_t room, size_t *used);

/** Brings the machine to rest: every pending operation is performed, no cache has an entry, and each line's home has it
** alone. events is the number of events that it took (Machine::settle).
**
**   - SCI_OK
**   - SCI_NO_MEMORY   The machine stands where the events made so far lead, and is coherent. events is as it was.
**   - SCI_MISUSE      The object keeps no machine. */
sci_status sci_machine_settle(sci_machine *machine, uint32_t *events);

/** Reads the last contents of a line (Machine::last_contents).
**
**   - SCI_OK
**   - SCI_RANGE       The machine has no such line.
**   - SCI_MISUSE      The object keeps no machine. */
sci_status sci_machine_last(const sci_machine *machine, uint8_t line, sci_stamped *contents);

/** Gives the one node that may change a line or is about to (Machine::authority).
**
**   - SCI_OK
**   - SCI_NOT_ENABLED No node may: the home has the line alone.
**   - SCI_RANGE       The machine has no such line.
**   - SCI_MISUSE      The object keeps no machine. */
sci_status sci_machine_authority(const sci_machine *machine, uint8_t line, uint8_t *node);

/** Puts the machine's logs and last contents into an empty object of logs. They are lawful, and sequentially consistent
** (Machine::logs and last).
**
**   - SCI_OK          logs keeps them, until sci_logs_close.
**   - SCI_MISUSE      machine keeps no machine, or logs isn't empty.
**   - SCI_NO_MEMORY */
sci_status sci_machine_logs(const sci_machine *machine, sci_logs *logs);

/** @} */

/** @name Nodes
** The controller that a simulator has at each processor. The caller carries the packets. Their first two bytes are
** the target, the higher one first. The nodes are together a coherent machine if the caller gives each packet to its target at
** most once: a request by sci_node_serve or sci_node_refuse, an answer by sci_node_accept, and any by sci_node_turn. Packets may come
** in any order. Nothing goes on about a line of a node whose packet is never given. A call that answers another status than SCI_OK has
** not taken the packet, nor has a turn that marks it with 0. At most min(lines, slots) answers are under way to a node, and nodes *
** min(lines, slots) packets in all. No call but sci_node_open, sci_node_clone and sci_node_start_log takes memory.
**
** What a node does next, and which requests it keeps for later, is its policy's to say: sci_node_turn does it in one call, and
** sci_node_next and sci_node_decide say it. A policy of one's own may do other events, and the logs are lawful with any. But one that
** serves each request at once can go on for ever without an operation, in lock step with fixed delays for one: a node claims a line,
** another's cread comes while it waits, the claim is answered wbno, and the node claims again.
** @{ */

/** Puts the controller of node me in a machine of this size into an empty object. Its processor may issue limit operations
** (sci_core::Node::new).
**
**   - SCI_OK          The object keeps the node, until sci_node_close.
**   - SCI_MISUSE      The object isn't empty.
**   - SCI_RANGE       me is not below nodes, or not 1 to 16 nodes, 1 to 64 lines, 1 to 8 slots, or a limit of 1 to 65,536.
**   - SCI_NO_MEMORY */
sci_status sci_node_open(sci_node *node, uint8_t me, uint8_t nodes, uint8_t lines, uint8_t slots, uint32_t limit);

/** Lets the node go, and leaves the object empty: all zero. An empty object stays empty.
**
**   - SCI_OK
**   - SCI_MISUSE      The object keeps something else. */
sci_status sci_node_close(sci_node *node);

/** Puts a copy of the node into an empty object, with what its policy remembers (Node::try_clone and Policy::copy). A packet is still
** to be given once: to the node, or to its copy, or to each of them if the other nodes and all that is under way are copied too.
**
**   - SCI_OK          copy keeps it, until sci_node_close. The two share nothing.
**   - SCI_MISUSE      node keeps no node, or copy isn't empty.
**   - SCI_NO_MEMORY */
sci_status sci_node_clone(const sci_node *node, sci_node *copy);

/** Begins again with an empty log, at rest: serials go on from 0, and the node may issue limit operations. Each home that is here
** knows what it knew, so versions go on, and the policy remembers what it remembered. All else is as in a new node. So a run goes on
** after 65,536 operations of a node (sci_core::Node::new, and Node::serve for its homes, as if nodes had had the lines before).
**
**   - SCI_OK
**   - SCI_RANGE       Not a limit of 1 to 65,536.
**   - SCI_NOT_ENABLED An operation is pending, a line has an entry, or an answer waits. The node stays as it is.
**   - SCI_NO_MEMORY
**   - SCI_MISUSE      The object keeps no node. */
sci_status sci_node_start_log(sci_node *node, uint32_t limit);

/** Issues an operation, and gives its serial: the count of operations issued before (Node::issue).
**
**   - SCI_OK          The operation is pending on its line.
**   - SCI_NOT_ENABLED There is no such line or word, or an operation is pending on the line.
**   - SCI_FULL        It could be issued, but limit operations were.
**   - SCI_RANGE       There is no such act.
**   - SCI_MISUSE      The object keeps no node. */
sci_status sci_node_issue(sci_node *node, const sci_op *op, uint32_t *serial);

/** Performs the operation that is pending on a line, and gives its entry, which ends the node's log (Node::perform).
**
**   - SCI_OK
**   - SCI_NOT_ENABLED None is pending there, or the state of the line doesn't allow it.
**   - SCI_MISUSE      The object keeps no node. */
sci_status sci_node_perform(sci_node *node, uint8_t line, sci_entry *entry);

/** Makes a request of this kind about a line, and writes it over the first bytes, and how many. It is to be carried to its
** target (Node::ask and sci_packets::encode).
**
**   - SCI_OK
**   - SCI_NOT_ENABLED There is no such line, its state doesn't ask this, or no version slot is free.
**   - SCI_RANGE       There is no such kind.
**   - SCI_MISUSE      The object keeps no node. */
sci_status sci_node_ask(sci_node *node, uint8_t line, uint8_t ask, uint8_t packet[SCI_PACKET_BYTES], size_t *used);

/** Takes the answer that waits, and writes it over the first bytes, and how many. It is to be carried to its target
** (Node::take_answer and sci_packets::encode).
**
**   - SCI_OK
**   - SCI_NOT_ENABLED No answer waits.
**   - SCI_MISUSE      The object keeps no node. */
sci_status sci_node_take_answer(sci_node *node, uint8_t packet[SCI_PACKET_BYTES], size_t *used);

/** Serves the request that the bytes begin with: its answer waits then (sci_packets::decode and Node::serve). The policy notes who
** sent it (Policy::served).
**
**   - SCI_OK
**   - SCI_SHORT, SCI_UNKNOWN_COMMAND, SCI_BAD_OFFSET, SCI_BAD_IDENTIFIER
**                     The bytes begin with no packet.
**   - SCI_RANGE       It is no request, not for this node, about a line that the machine hasn't, or for the home of a line that is
**                     at another node; or the machine has no node of the number of its source or of its identifier.
**   - SCI_NOT_ENABLED An answer waits already.
**   - SCI_MISUSE      The object keeps no node. */
sci_status sci_node_serve(sci_node *node, const uint8_t *packet, size_t length);

/** Answers the request that the bytes begin with as busy: that answer waits then (Node::refuse). The statuses are those of
** sci_node_serve. SCI_NOT_ENABLED is answered for a setback too, which may not be refused. */
sci_status sci_node_refuse(sci_node *node, const uint8_t *packet, size_t length);

/** Accepts the answer that the bytes begin with (Node::accept).
**
**   - SCI_OK
**   - SCI_SHORT, SCI_UNKNOWN_COMMAND, SCI_BAD_OFFSET, SCI_BAD_IDENTIFIER
**                     The bytes begin with no packet.
**   - SCI_RANGE       It is not for this node, or about a line that the machine hasn't; or the machine has no node of the number of
**                     its source or of its identifier.
**   - SCI_NOT_ENABLED The node doesn't await it, or asked another node. A line that is Rolling or Fading doesn't know whom it asked.
**   - SCI_MISUSE      The object keeps no node. */
sci_status sci_node_accept(sci_node *node, const uint8_t *packet, size_t length);

/** Takes a turn of the node by its policy, with the packets that have come to it: the turn is counted; the answer that waits is sent;
** the answers among the packets are accepted, in the order in which they stand; the requests are served or refused as the policy
** decides, in that order, and the answer to each is sent; and the node asks up to four times for what its policy wants. What it sends
** stands over the first structs of sent, in the order of sending, and is to be carried to its targets (Policy::begin_turn, decide,
** served and next, Node::take_answer, accept, serve, refuse and ask).
**
** taken gets a mark for each packet: 1 if the node took it, and 0 if it did not. A request that isn't taken is kept by the policy, and
** is to be given again in the next turn. What is no packet for this node, and an answer that it doesn't await or of a node that it
** didn't ask, isn't taken either: those that sci_node_serve and sci_node_accept refuse.
**
** want is what the node wants then: to perform an operation (sci_node_perform), or nothing. It is nothing too if the node asked four
** times, and may want to ask more in its next turn.
**
**   - SCI_OK          taken, sent, used and want are written.
**   - SCI_FULL        sent has room for fewer than count + SCI_TURN_ROOM packets. All is as it was.
**   - SCI_RANGE       taken has room for fewer than count marks. All is as it was.
**   - SCI_MISUSE      The object keeps no node. */
sci_status sci_node_turn(
    sci_node *node, const sci_packet *came, size_t count, uint8_t *taken, size_t marks, sci_packet *sent, size_t room, size_t *used,
    sci_want *want);

/** Counts a turn of the node. A turn is what a node does at one time, in this order: it sends the answer that waits, accepts the answers
** that have come, looks at the requests that have come, and does what it wants. In another order nodes can go on for ever without an
** operation: a claim that was answered wbno is made again at once, and the cread that was kept has to be looked at in between. In one
** turn of 64 sci_node_decide keeps fewer requests (Policy::begin_turn).
**
**   - SCI_OK
**   - SCI_MISUSE      The object keeps no node. */
sci_status sci_node_begin_turn(sci_node *node);

/** Gives what the node does next. It is enabled: the call that it names answers SCI_OK (Policy::next). The node stays as it is; the
** policy counts that it was asked, and remembers a purge that it wants.
**
**   - SCI_OK
**   - SCI_MISUSE      The object keeps no node. */
sci_status sci_node_next(sci_node *node, sci_want *want);

/** Gives what the node does with the request that the bytes begin with: a number of enum sci_decision (Policy::decide). A setback
** is always served. The statuses are those of sci_node_serve, but for SCI_NOT_ENABLED. */
sci_status sci_node_decide(const sci_node *node, const uint8_t *packet, size_t length, uint32_t *decision);

/** Gives the node whose requests are looked at first in a turn: the one after the sender that was served or refused last
** (Policy::first_sender).
**
**   - SCI_OK
**   - SCI_MISUSE      The object keeps no node. */
sci_status sci_node_first_sender(const sci_node *node, uint8_t *from);

/** Reads what the node's cache has of a line (Node::held).
**
**   - SCI_OK
**   - SCI_RANGE       The machine has no such line.
**   - SCI_MISUSE      The object keeps no node. */
sci_status sci_node_held(const sci_node *node, uint8_t line, sci_held *held);

/** Reads what the home of a line knows, if it is at this node (Node::home).
**
**   - SCI_OK
**   - SCI_RANGE       The machine has no such line.
**   - SCI_NOT_ENABLED The home is at another node.
**   - SCI_MISUSE      The object keeps no node. */
sci_status sci_node_home_state(const sci_node *node, uint8_t line, sci_home *home);

/** Reads the answer that waits, and leaves it there (Node::waiting).
**
**   - SCI_OK
**   - SCI_NOT_ENABLED No answer waits.
**   - SCI_MISUSE      The object keeps no node. */
sci_status sci_node_answer(const sci_node *node, sci_packet *packet);

/** Gives the operation that is pending on a line, and its serial. An operand that its act doesn't have is 0 (Node::pending).
**
**   - SCI_OK
**   - SCI_NOT_ENABLED None is pending there.
**   - SCI_MISUSE      The object keeps no node. */
sci_status sci_node_pending(const sci_node *node, uint8_t line, sci_op *op, uint32_t *serial);

/** Reads the contents of a line whose home is at this node, if the home has them: nobody may have written since (Node::home and
** sci_home::Home::current). The home of line l is at node l modulo the number of nodes.
**
**   - SCI_OK
**   - SCI_NOT_ENABLED The home is at another node, or another node may have written.
**   - SCI_RANGE       The machine has no such line.
**   - SCI_MISUSE      The object keeps no node. */
sci_status sci_node_home(const sci_node *node, uint8_t line, sci_stamped *contents);

/** Gives whether no operation is pending and no line has an entry: 1, and else 0 (Node::is_at_rest).
**
**   - SCI_OK
**   - SCI_MISUSE      The object keeps no node. */
sci_status sci_node_is_at_rest(const sci_node *node, uint32_t *at_rest);

/** @} */

/** @name Logs
** Those of all nodes, with the last contents of each line, of this machine or of any other.
**
** Logs can begin with given contents of each line: the logs of a window of a run, which goes on from there. Their versions go on from
** those of the first contents. A run of any length is judged so, window by window: sci_logs_go_on begins the next one where this one
** ends. Windows that are lawful one after the other are one lawful run. In each window a node's serials rise, and may begin with 0 again.
** @{ */

/** Puts logs without entries into an empty object. Each line's last contents are zero words at version 0 (Logs::new and
** Last::zero).
**
**   - SCI_OK          The object keeps the logs, until sci_logs_close.
**   - SCI_MISUSE      The object isn't empty.
**   - SCI_RANGE       Not 1 to 16 nodes or 1 to 64 lines.
**   - SCI_NO_MEMORY */
sci_status sci_logs_open(sci_logs *logs, uint8_t nodes, uint8_t lines);

/** Lets the logs go, and leaves the object empty: all zero. An empty object stays empty.
**
**   - SCI_OK
**   - SCI_MISUSE      The object keeps something else. */
sci_status sci_logs_close(sci_logs *logs);

/** Ends the log of the entry's node with the entry (Logs::push).
**
**   - SCI_OK
**   - SCI_RANGE       The logs have no such node or line, the word is above 7, act is outside its table, or has_word is not 0 for
**                     a store and 1 for any other operation.
**   - SCI_FULL        The entry is in range, and the node's log has 65,536 entries.
**   - SCI_NO_MEMORY
**   - SCI_MISUSE      The object keeps no logs. */
sci_status sci_logs_push(sci_logs *logs, const sci_entry *entry);

/** Replaces the last contents of a line (Last::set).
**
**   - SCI_OK
**   - SCI_RANGE       There is no such line.
**   - SCI_MISUSE      The object keeps no logs. */
sci_status sci_logs_set_last(sci_logs *logs, uint8_t line, const sci_stamped *contents);

/** Reads the last contents of a line (Last::get). The statuses are those of sci_logs_set_last. */
sci_status sci_logs_last(const sci_logs *logs, uint8_t line, sci_stamped *contents);

/** Replaces the contents with which a line begins. Without this call, and without sci_logs_go_on, each line begins with zero words at
** version 0 (Last::set).
**
**   - SCI_OK
**   - SCI_RANGE       There is no such line, or the version is above 2^63.
**   - SCI_NO_MEMORY
**   - SCI_MISUSE      The object keeps no logs. */
sci_status sci_logs_set_first(sci_logs *logs, uint8_t line, const sci_stamped *contents);

/** Reads the contents with which a line begins (Last::get).
**
**   - SCI_OK
**   - SCI_RANGE       There is no such line.
**   - SCI_MISUSE      The object keeps no logs. */
sci_status sci_logs_first(const sci_logs *logs, uint8_t line, sci_stamped *contents);

/** Begins the next window: it drops all entries, and each line begins with its last contents, which stay.
**
**   - SCI_OK
**   - SCI_RANGE       A version of the last contents is above 2^63.
**   - SCI_NO_MEMORY
**   - SCI_MISUSE      The object keeps no logs. */
sci_status sci_logs_go_on(sci_logs *logs);

/** Gives how many nodes and lines there are.
**
**   - SCI_OK
**   - SCI_MISUSE      The object keeps no logs. */
sci_status sci_logs_size(const sci_logs *logs, uint8_t *nodes, uint8_t *lines);

/** Counts the entries of a node (Logs::of).
**
**   - SCI_OK
**   - SCI_RANGE       The node is 16 or more.
**   - SCI_MISUSE      The object keeps no logs. */
sci_status sci_logs_count(const sci_logs *logs, uint8_t node, size_t *count);

/** Reads the entry at a place of a node's log, from 0. A word that it doesn't have, and operands that its act doesn't have, are
** 0 (Logs::of).
**
**   - SCI_OK
**   - SCI_RANGE       The node is 16 or more, or its log has no such place.
**   - SCI_MISUSE      The object keeps no logs. */
sci_status sci_logs_entry(const sci_logs *logs, uint8_t node, size_t place, sci_entry *entry);

/** Audits the logs. kind is SCI_LAWFUL exactly if on each line one memory of one thread, which begins with the first contents,
** explains the logs and the last contents. Else the verdict is the first fault of the lowest line that has one. In a window a version
** that isn't above that of the first contents is missing, as is one that is too high; a load may have that of the first contents
** (sci_history::audit, sci_windows::audit_from).
**
**   - SCI_OK
**   - SCI_NO_MEMORY
**   - SCI_MISUSE      The object keeps no logs. */
sci_status sci_logs_audit(const sci_logs *logs, sci_verdict *verdict);

/** Audits logs whose last contents aren't known, as those of a simulation that was cut off. kind is SCI_LAWFUL exactly if the logs are
** lawful with some last contents. Else the verdict is the first fault of the lowest line that has one, whatever the last contents are. So it
** is never SCI_LAST_DIFFERS, and the last contents that the logs have don't count (sci_windows::audit_cut_off).
**
**   - SCI_OK
**   - SCI_NO_MEMORY
**   - SCI_MISUSE      The object keeps no logs. */
sci_status sci_logs_audit_cut_off(const sci_logs *logs, sci_verdict *verdict);

/** Writes what is wrong with the logs over the first bytes, and how many: what sciview explain writes of the text of sci_logs_write.
** Of each line that has a fault it has the entry at fault, what it found, the word that one memory of one thread gives and who made
** it, and the entries around it; it names lines of that text. Of lawful logs it is one line. The bytes after it stay, and no zero
** ends the text (sci_reports::ReadLog::explained).
**
**   - SCI_OK          text and used are written.
**   - SCI_RANGE       The logs can't be a text: a serial is 65,536 or more, or they begin with contents that were given.
**   - SCI_FULL        It is longer than room. used says how long; text is as it was.
**   - SCI_NO_MEMORY
**   - SCI_MISUSE      The object keeps no logs. */
sci_status sci_logs_explain(const sci_logs *logs, uint8_t *text, size_t room, size_t *used);

/** Gives the word that one memory of one thread has where the verdict of sci_logs_audit is SCI_WRONG_REPLY, and the entry that made it.
** has_maker is 0, and maker stays as it was, if the word is the zero that was there at first (sci_reports::ReadLog::wanted).
**
**   - SCI_OK          word and has_maker are written, and maker if has_maker is 1.
**   - SCI_NOT_ENABLED The verdict is another one.
**   - SCI_RANGE       The logs can't be a text: a serial is 65,536 or more, or they begin with contents that were given.
**   - SCI_NO_MEMORY
**   - SCI_MISUSE      The object keeps no logs. */
sci_status sci_logs_wanted(const sci_logs *logs, uint64_t *word, uint32_t *has_maker, sci_entry *maker);

/** Looks for one order of all entries that keeps the order of each node's log and that one memory of one thread explains, and
** writes it over the first entries, or a cycle of entries, each of which would have to come after the next, and the last after
** the first. used is how many they are: all entries, or at most 32 (sci_history::sequential_order, sci_windows::order_from).
**
**   - SCI_OK          kind, entries and used are written. used is 0 for SCI_UNLAWFUL.
**   - SCI_FULL        There is room for less. used says for how many; kind and entries are as they were.
**   - SCI_NO_MEMORY
**   - SCI_MISUSE      The object keeps no logs. */
sci_status sci_logs_order(const sci_logs *logs, uint32_t *kind, sci_entry *entries, size_t room, size_t *used);

/** Gives the kind alone that sci_logs_order would find, which needs no room (sci_history::sequential_order, sci_windows::order_from).
**
**   - SCI_OK
**   - SCI_NO_MEMORY
**   - SCI_MISUSE      The object keeps no logs. */
sci_status sci_logs_order_kind(const sci_logs *logs, uint32_t *kind);

/** Puts the logs whose text the bytes are into an empty object (sci_text::logs_of).
**
**   - SCI_OK          The object keeps the logs, until sci_logs_close. fault is as it was.
**   - SCI_TEXT        The text is no log: fault is written, and the object stays empty.
**   - SCI_MISUSE      The object isn't empty.
**   - SCI_NO_MEMORY */
sci_status sci_logs_read(sci_logs *logs, const uint8_t *text, size_t length, sci_text_fault *fault);

/** Writes the text of the logs over the first bytes, and how many. The bytes after it stay, and no zero ends the text. If a serial is
** 65,536 or more, sci_logs_read refuses it (sci_text::logs_text).
**
**   - SCI_OK          text and used are written.
**   - SCI_RANGE       The logs can't be a text: they begin with contents that were given.
**   - SCI_FULL        The text is longer than room. used says how long; text is as it was.
**   - SCI_NO_MEMORY
**   - SCI_MISUSE      The object keeps no logs. */
sci_status sci_logs_write(const sci_logs *logs, uint8_t *text, size_t room, size_t *used);

/** @} */

/** @name Scoreboards
** An audit entry by entry, so that a simulation stops at the first fault. A scoreboard is told each operation when it takes effect: on
** each line in the order of versions. It keeps what each line has and where each node stands on it, and no entries. So a run may be of
** any length. What it took is lawful, with its contents as the last ones. What it says is at fault is in no lawful logs that begin with
** the entries that it took, whatever comes after them. What needs the end, such as a version that never came, is said by sci_logs_audit.
** @{ */

/** Puts a scoreboard into an empty object. Nothing was told, and each line begins with zero words at version 0 (Scoreboard::new).
**
**   - SCI_OK          The object keeps the scoreboard, until sci_scoreboard_close.
**   - SCI_MISUSE      The object isn't empty.
**   - SCI_RANGE       Not 1 to 16 nodes or 1 to 64 lines.
**   - SCI_NO_MEMORY */
sci_status sci_scoreboard_open(sci_scoreboard *scoreboard, uint8_t nodes, uint8_t lines);

/** Lets the scoreboard go, and leaves the object empty: all zero. An empty object stays empty.
**
**   - SCI_OK
**   - SCI_MISUSE      The object keeps something else. */
sci_status sci_scoreboard_close(sci_scoreboard *scoreboard);

/** Begins a line with these contents. What was told of it is forgotten (Scoreboard::begin).
**
**   - SCI_OK
**   - SCI_RANGE       There is no such line.
**   - SCI_MISUSE      The object keeps no scoreboard. */
sci_status sci_scoreboard_begin(sci_scoreboard *scoreboard, uint8_t line, const sci_stamped *contents);

/** Reads the contents that a line has after what was told: the words that the next operation there finds (Scoreboard::contents).
**
**   - SCI_OK
**   - SCI_RANGE       There is no such line.
**   - SCI_MISUSE      The object keeps no scoreboard. */
sci_status sci_scoreboard_contents(const sci_scoreboard *scoreboard, uint8_t line, sci_stamped *contents);

/** Tells an entry. If kind is SCI_LAWFUL it goes on from what was told of its line, and is taken. Else the entry is at fault, the
** scoreboard stays as it was, and the verdict names the entry: kind is the first of these that holds (Scoreboard::tell).
**
**   - SCI_VERSION_MISSING  The version is below the one with which the line began, or it is that one and the operation makes a version.
**   - SCI_VERSION_TWICE    The operation makes a version that was made.
**   - SCI_OUT_OF_ORDER     The node's latest entry on the line has its serial or a higher one, or a higher version.
**   - SCI_WRONG_REPLY      The line comes to the version by the operation, which answers another word there.
**
** It takes constant time.
**
**   - SCI_OK          verdict is written.
**   - SCI_RANGE       The scoreboard has no such node or line, or the struct says no entry, as of sci_logs_push.
**   - SCI_NOT_ENABLED Nothing can be said now. The version is ahead of the line: the entry can be told again when those before it were.
**                     Or it is a load of a version that the line has left: sci_logs_audit judges it at the end.
**   - SCI_MISUSE      The object keeps no scoreboard. */
sci_status sci_scoreboard_tell(sci_scoreboard *scoreboard, const sci_entry *entry, sci_verdict *verdict);

/** @} */

/** @name Traces
** What the processors of a machine did, without versions. Nothing is kept between two calls.
** @{ */

/** Judges a trace: whether some versions explain the operations at each address, as logs that are lawful, and if that is asked, whether
** one order of all operations does. Those of a processor stand in its order. An address without a last word may end with any. The
** verdict is about the lowest address that isn't coherent, or of which nothing was found. The ids of the operations that it names are
** written over the first numbers, as many as there is room for; named may be more (sci_judge::judge and consistency_of).
**
** The verdict holds, but it need not come: SCI_UNDECIDED, SCI_VERSIONS_UNKNOWN and SCI_CONSISTENCY_UNKNOWN say nothing. sciview judge
** says the same of the same trace, with a limit of 1,000,000.
**
**   - SCI_OK          judgement is written, and ids.
**   - SCI_RANGE       A processor is above 15, a kind above 2, or an end before its beginning; or two last words at one address
**                   differ.
**   - SCI_NO_MEMORY */
sci_status sci_trace_judge(const sci_access *accesses, size_t count, const sci_last_word *last, size_t last_count, const sci_trace_way *way,
    sci_judgement *judgement, uint64_t *ids, size_t room);

/** @} */

#ifdef __cplusplus
}
#endif

#endif
