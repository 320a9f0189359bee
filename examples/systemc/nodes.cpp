// Modules of SystemC with a controller of the library each, and a network that takes a random time for each packet. Every processor does
// random operations; then the logs of all nodes are audited.
//
//     c++ -std=c++17 -o nodes nodes.cpp $(pkg-config --cflags --libs lichenknit) -lsystemc && ./nodes 4 16 4 1000
//
// The numbers are nodes, lines, slots, and operations a node.
#include <systemc>

#include <algorithm>
#include <cstdio>
#include <cstdlib>
#include <map>
#include <memory>
#include <vector>

#include "lichenknit.h"

using sc_core::SC_NS;

namespace {

// Ends the program unless a call has answered SCI_OK.
void must(const char *call, sci_status status) {
    if (status != SCI_OK) {
        std::printf("%s: %s: %s\n", call, sci_status_name(status), sci_status_text(status));
        std::exit(1);
    }
}

struct Size {
    uint8_t nodes, lines, slots;
    uint32_t operations;
};

struct Packet {
    uint8_t bytes[SCI_PACKET_BYTES];
    size_t length;
    int target() const { return bytes[1]; }
    bool is_request() const { return bytes[2] == 0; }
};

// Numbers that are the same on every machine.
class Random {
  public:
    explicit Random(uint64_t seed) : state(seed * 2 + 1) {}
    unsigned below(unsigned bound) {
        state ^= state << 13;
        state ^= state >> 7;
        state ^= state << 17;
        return static_cast<unsigned>((state >> 32) % bound);
    }

  private:
    uint64_t state;
};

// The logs of all nodes, and how many packets there were.
struct Record {
    explicit Record(const Size &size) { must("open", sci_logs_open(&logs, size.nodes, size.lines)); }
    ~Record() { sci_logs_close(&logs); }
    Record(const Record &) = delete;
    Record &operator=(const Record &) = delete;
    sci_logs logs = SCI_INIT;
    unsigned long operations = 0, packets = 0;
};

// A processor with its controller. Each nanosecond it takes a turn.
class Station : public sc_core::sc_module {
  public:
    std::vector<Station *> others;

    SC_HAS_PROCESS(Station);
    Station(sc_core::sc_module_name name, uint8_t me, const Size &size, Record &record)
        : sc_module(name), size(size), record(record), random(me + 1u) {
        must("open", sci_node_open(&node, me, size.nodes, size.lines, size.slots, size.operations));
        SC_METHOD(turn);
    }
    ~Station() override { sci_node_close(&node); }

    bool is_done() const { return issued == size.operations && performed == size.operations && came.empty(); }

    // The newest contents of a line that the node's home or cache has.
    void note_last(uint8_t line, sci_stamped &last) const {
        sci_stamped home;
        sci_held held;
        if (sci_node_home(&node, line, &home) == SCI_OK && home.version >= last.version) last = home;
        must("held", sci_node_held(&node, line, &held));
        if (held.has_contents && held.contents.version >= last.version) last = held.contents;
    }

  private:
    void turn() {
        must("begin_turn", sci_node_begin_turn(&node));
        issue();
        take_all(false);
        take_all(true);
        sci_want want;
        for (must("next", sci_node_next(&node, &want)); want.kind != SCI_WANT_NOTHING; must("next", sci_node_next(&node, &want))) act(want);
        next_trigger(1, SC_NS);
    }

    void issue() {
        if (issued == size.operations || random.below(2) == 0) return;
        const uint8_t acts[] = {SCI_LOAD, SCI_LOAD, SCI_STORE, SCI_FETCH_ADD};
        const auto line = static_cast<uint8_t>(random.below(size.lines)), word = static_cast<uint8_t>(random.below(8));
        const sci_op op = {acts[random.below(4)], line, word, 0, 0, random.below(100)};
        uint32_t serial;
        if (sci_node_issue(&node, &op, &serial) == SCI_OK) issued++;
    }

    // Takes the requests, or the answers, that have come. Answers come first in a turn: a claim that was refused is made again at once, and a
    // request that waits for its answer is looked at in between.
    void take_all(bool requests) {
        for (auto it = came.begin(); it != came.end() && it->first <= sc_core::sc_time_stamp();)
            it = it->second.is_request() == requests && takes(it->second) ? came.erase(it) : std::next(it);
    }

    // Takes a packet, unless the policy keeps it for later.
    bool takes(const Packet &packet) {
        uint32_t decision;
        if (!packet.is_request()) {
            must("accept", sci_node_accept(&node, packet.bytes, packet.length));
            return true;
        }
        must("decide", sci_node_decide(&node, packet.bytes, packet.length, &decision));
        if (decision == SCI_KEEP) return false;
        must("serve or refuse", (decision == SCI_TO_SERVE ? sci_node_serve : sci_node_refuse)(&node, packet.bytes, packet.length));
        Packet answer;
        must("take_answer", sci_node_take_answer(&node, answer.bytes, &answer.length));
        send(answer);
        return true;
    }

    void act(const sci_want &want) {
        if (want.kind == SCI_WANT_PERFORM) {
            sci_entry entry;
            must("perform", sci_node_perform(&node, want.line, &entry));
            must("push", sci_logs_push(&record.logs, &entry));
            performed++;
            record.operations++;
        } else {
            Packet request;
            must("ask", sci_node_ask(&node, want.line, want.ask, request.bytes, &request.length));
            send(request);
        }
    }

    // A packet comes after 1 to 20 ns, also before one that was sent earlier.
    void send(const Packet &packet) {
        const sc_core::sc_time latency(1 + random.below(20), SC_NS);
        others[packet.target()]->came.emplace(sc_core::sc_time_stamp() + latency, packet);
        record.packets++;
    }

    sci_node node = SCI_INIT;
    const Size size;
    Record &record;
    Random random;
    unsigned issued = 0, performed = 0;
    std::multimap<sc_core::sc_time, Packet> came; // by the time at which they come
};

bool all_done(const std::vector<std::unique_ptr<Station>> &stations) {
    for (const auto &it : stations)
        if (!it->is_done()) return false;
    return true;
}

// Whether the logs are lawful and have one order.
bool audit(const std::vector<std::unique_ptr<Station>> &stations, const Size &size, Record &record) {
    sci_verdict verdict;
    uint32_t kind;
    for (uint8_t line = 0; line < size.lines; line++) {
        sci_stamped last = {};
        for (const auto &it : stations) it->note_last(line, last);
        must("set_last", sci_logs_set_last(&record.logs, line, &last));
    }
    must("audit", sci_logs_audit(&record.logs, &verdict));
    must("order_kind", sci_logs_order_kind(&record.logs, &kind));
    std::printf("%lu operations and %lu packets in %.0f ns: %s, %s\n", record.operations, record.packets, sc_core::sc_time_stamp().to_seconds() * 1e9,
                sci_verdict_name(verdict.kind), kind == SCI_ORDER ? "with one order" : "without one order");
    return verdict.kind == SCI_LAWFUL && kind == SCI_ORDER;
}

} // namespace

int sc_main(int count, char *words[]) {
    const auto number = [&](int place, unsigned usual, unsigned most) {
        return static_cast<unsigned>(std::min<unsigned long>(place < count ? std::strtoul(words[place], nullptr, 10) : usual, most));
    };
    const auto byte = [&](int place, unsigned usual) { return static_cast<uint8_t>(number(place, usual, 255)); };
    const Size size = {byte(1, 4), byte(2, 16), byte(3, 4), number(4, 1000, 1u << 20)};
    Record record(size);
    std::vector<std::unique_ptr<Station>> stations;
    for (uint8_t n = 0; n < size.nodes; n++) stations.push_back(std::make_unique<Station>(("node" + std::to_string(n)).c_str(), n, size, record));
    for (auto &it : stations)
        for (auto &other : stations) it->others.push_back(other.get());
    for (int i = 0; i < 10000 && !all_done(stations); i++) sc_core::sc_start(1000, SC_NS);
    return all_done(stations) && audit(stations, size, record) ? 0 : 1;
}
