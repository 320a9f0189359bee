// The two nodes of two_nodes.c as C++ classes own them: node 1 stores a word of line 0, and then node 0 loads it.
//
//     c++ -std=c++17 -o two_nodes two_nodes.cpp $(pkg-config --cflags --libs lichenknit) && ./two_nodes
#include <array>
#include <cstdio>
#include <initializer_list>
#include <new>
#include <stdexcept>

#include "lichenknit.h"

// Throws unless a call has answered SCI_OK.
static void must(sci_status status) {
    if (status == SCI_NO_MEMORY) throw std::bad_alloc();
    if (status != SCI_OK) throw std::runtime_error(sci_status_text(status));
}

struct Packet {
    std::array<uint8_t, SCI_PACKET_BYTES> bytes{};
    size_t length = 0;
    int target() const { return bytes[1]; }
};

class Node {
  public:
    explicit Node(uint8_t me) { must(sci_node_open(&object, me, 2, 4, 2, 16)); }
    Node(const Node &) = delete;
    Node &operator=(const Node &) = delete;
    ~Node() { sci_node_close(&object); }
    void issue(const sci_op &op) { uint32_t serial; must(sci_node_issue(&object, &op, &serial)); }
    sci_entry perform(uint8_t line) { sci_entry entry; must(sci_node_perform(&object, line, &entry)); return entry; }
    Packet ask(uint8_t line, uint8_t kind) { Packet made; must(sci_node_ask(&object, line, kind, made.bytes.data(), &made.length)); return made; }
    void serve(const Packet &request) { must(sci_node_serve(&object, request.bytes.data(), request.length)); }
    Packet take_answer() { Packet made; must(sci_node_take_answer(&object, made.bytes.data(), &made.length)); return made; }
    void accept(const Packet &answer) { must(sci_node_accept(&object, answer.bytes.data(), answer.length)); }

  private:
    sci_node object = SCI_INIT;
};

// Node n does an operation, after it has asked what it needs. Each request goes to its target, and the answer comes back.
static void operate(std::array<Node, 2> &nodes, int n, const sci_op &op, std::initializer_list<uint8_t> asks) {
    nodes[n].issue(op);
    for (uint8_t kind : asks) {
        const Packet request = nodes[n].ask(op.line, kind);
        std::printf("node %d asks node %d by %02x%02x\n", n, request.target(), request.bytes[2], request.bytes[3]);
        nodes[request.target()].serve(request);
        const Packet answer = nodes[request.target()].take_answer();
        std::printf("node %d answers by %02x%02x, %zu bytes\n", request.target(), answer.bytes[2], answer.bytes[3], answer.length);
        nodes[n].accept(answer);
    }
    const sci_entry entry = nodes[n].perform(op.line);
    std::printf("node %d %s %llu at version %llu\n", n, entry.has_word ? "loads" : "stores",
                static_cast<unsigned long long>(entry.has_word ? entry.word : op.datum), static_cast<unsigned long long>(entry.version));
}

int main() {
    std::array<Node, 2> nodes{Node(0), Node(1)};
    operate(nodes, 1, {SCI_STORE, 0, 3, 0, 0, 42}, {SCI_MREAD});
    operate(nodes, 0, {SCI_LOAD, 0, 3, 0, 0, 0}, {SCI_FREAD, SCI_CREAD});
}
