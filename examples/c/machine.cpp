// A machine as a C++ class owns it: it stores a word, comes to rest, and its logs are audited.
//
//     c++ -std=c++17 -o machine machine.cpp $(pkg-config --cflags --libs lichenknit) && ./machine
#include <cstdio>
#include <new>
#include <stdexcept>

#include "lichenknit.h"

// Throws unless a call has answered SCI_OK.
static void must(sci_status status) {
    if (status == SCI_NO_MEMORY) throw std::bad_alloc();
    if (status != SCI_OK) throw std::runtime_error(sci_status_text(status));
}

// What an object of the library keeps, for as long as this is in scope.
template <typename Object, sci_status (*close)(Object *)> class Owned {
  public:
    Owned() = default;
    Owned(const Owned &) = delete;
    Owned &operator=(const Owned &) = delete;
    ~Owned() { close(&object); }

  protected:
    Object object = SCI_INIT;
};

class Logs : public Owned<sci_logs, sci_logs_close> {
  public:
    explicit Logs(const sci_machine &machine) { must(sci_machine_logs(&machine, &object)); }
    bool lawful() const {
        sci_verdict verdict{};
        must(sci_logs_audit(&object, &verdict));
        return verdict.kind == SCI_LAWFUL;
    }
};

class Machine : public Owned<sci_machine, sci_machine_close> {
  public:
    Machine(uint8_t nodes, uint8_t lines, uint8_t slots, uint32_t limit) { must(sci_machine_open(&object, nodes, lines, slots, limit)); }
    void step(const sci_event &event) { must(sci_machine_step(&object, &event)); }
    uint32_t settle() {
        uint32_t events = 0;
        must(sci_machine_settle(&object, &events));
        return events;
    }
    sci_stamped last(uint8_t line) const {
        sci_stamped contents{};
        must(sci_machine_last(&object, line, &contents));
        return contents;
    }
    Logs logs() const { return Logs(object); }
};

int main() {
    Machine machine(2, 4, 2, 16);
    machine.step({SCI_ISSUE, 1, 0, 0, 0, {SCI_STORE, 0, 3, 0, 0, 42}});
    std::printf("settled by %u events\n", machine.settle());
    std::printf("word 3 of line 0 is %llu\n", static_cast<unsigned long long>(machine.last(0).words[3]));
    std::printf("lawful: %d\n", machine.logs().lawful());
    try {
        Machine none(17, 4, 2, 16);
    } catch (const std::runtime_error &error) {
        std::printf("17 nodes: %s\n", error.what());
    }
}
