#!/usr/bin/env python3
"""Four nodes in lock step, as examples/c/lock_step.c: each packet takes three cycles, and what a node does is its policy's to say."""

from lichenknit import Decision, Logs, Node, Op, WantKind

NODES, LINES, SLOTS, OPERATIONS, DELAY = 4, 2, 2, 1000, 3


class Station:
    """A node, and the packets that are on their way to it, with the cycles in which they come."""

    def __init__(self, me):
        self.me, self.node, self.issued, self.way = me, Node(me, NODES, LINES, SLOTS, OPERATIONS), 0, []

    def issue(self):
        line = (self.issued + self.me) % LINES
        op = Op.load(line, self.issued % 8) if self.issued % 3 == 0 else Op.fetch_add(line, self.issued % 8, 1)
        if self.issued < OPERATIONS and self.node.pending(line) is None:
            self.node.issue(op)
            self.issued += 1

    def serves(self, packet):
        """The request is served or refused, if the policy doesn't keep it for later."""
        decision = self.node.decide(packet)
        if decision == Decision.TO_SERVE:
            self.node.serve(packet)
        elif decision == Decision.TO_REFUSE:
            self.node.refuse(packet)
        return decision != Decision.KEEP

    def cycle(self, now, logs):
        """What the node does in a cycle: it accepts answers, looks at requests, and does what it wants. Gives the packets that it sends. A
        packet whose third byte isn't 0 is an answer."""
        came, sent = [it for it in self.way if it[0] <= now], []
        self.way = [it for it in self.way if it[0] > now]
        self.node.begin_turn()
        for _, packet in came:
            if packet[2]:
                self.node.accept(packet)
        for comes, packet in came:
            if not packet[2] and self.serves(packet):
                sent.append(self.node.take_answer())
            elif not packet[2]:
                self.way.append((comes, packet))
        for want in self.node.wants():
            if want.kind == WantKind.PERFORM:
                logs.push(self.node.perform(want.line))
            else:
                sent.append(self.node.ask(want.line, want.asks))
        return sent


def newest(stations, line):
    """The newest contents of a line that a home or a cache has: the last ones, when all operations are performed."""
    return max(it for station in stations for it in (station.node.home(line), station.node.held(line).contents) if it)


def main():
    stations, logs, now, packets = [Station(it) for it in range(NODES)], Logs(NODES, LINES), 0, 0
    while len(logs) < NODES * OPERATIONS and now < 1_000_000:
        for station in stations:
            station.issue()
            for packet in station.cycle(now, logs):
                stations[packet[1]].way.append((now + DELAY, packet))
                packets += 1
        now += 1
    for line in range(LINES):
        logs.set_last(line, newest(stations, line))
    print(f"{len(logs)} operations in {now} cycles and {packets} packets: {logs.audit()}, {logs.order_kind()}")


if __name__ == "__main__":
    main()
