"""Tests of the package, over the library of $LICHENKNIT_LIBRARY."""

import doctest
import gc
import os
import random
import shutil
import threading
import unittest
from copy import deepcopy

import lichenknit
from lichenknit import (Access, Act, AskKind, BadPacket, BadText, BadTrace, Command, Consistency, Contents, Dead, Decision, Entry, Event,
                        Freedom, Full, HomeState, JudgementKind, Lane, Logs, Machine, Misuse, NoMemory, Node, NotEnabled, Obstacle, Op, OrderKind, OutOfRange, Packet, Scoreboard, State, Status, TextKind,
                        Verdict, VerdictKind, WantKind, Witness, judge, judge_accesses, packets, size_text)

LOG = "log 2 2 1\nlast 0 @1 7 0 0 0 0 0 0 0\n0 0 store 0 0 7 = - @1\n1 0 load 0 0 = 7 @1\n"
EXAMPLES = os.path.join(os.path.dirname(os.path.abspath(__file__)), "..", "..", "examples")
STORE = Op.store(line=0, word=3, datum=42)


def example(name):
    with open(os.path.join(EXAMPLES, name), encoding="utf-8") as file:
        return file.read()


def stored():
    """A machine in which node 1 has stored to line 0, whose home is at node 0."""
    machine = Machine(2, 4, 2, 16)
    for event in (Event.issue(1, STORE), Event.ask(1, 0, AskKind.MREAD), Event.serve(1, 0), Event.reply(0), Event.accept(0, 1), Event.perform(1, 0)):
        machine.step(event)
    return machine


class Values(unittest.TestCase):
    def test_names_are_those_of_the_library(self):
        library = lichenknit.library
        self.assertEqual(lichenknit.library_version(), tuple(int(it) for it in lichenknit.__version__.split(".")[:2]))
        names = {"status": Status, "command": Command, "state": State, "home_state": HomeState, "obstacle": Obstacle, "verdict": VerdictKind}
        for what, numbers in names.items():
            for it in numbers:
                self.assertEqual(getattr(library(), f"sci_{what}_name")(it).decode(), str(it))

    def test_enums_print_their_names(self):
        text = f"{State.FRESH_HEAD} {HomeState.GONE} {Command.MREAD} {Obstacle.NO_SLOT} {Status.RANGE}"
        self.assertEqual(text, "FreshHead GONE mread no-slot SCI_RANGE")

    def test_operations_have_their_operands(self):
        self.assertEqual(Op.compare_swap(1, 2, expected=3, datum=4), Op(Act.COMPARE_SWAP, 1, 2, 3, 4))
        self.assertEqual(len({Op.load(0, 0), Op.load(0, 0), Op.store(0, 0, 1)}), 2)


class Refusals(unittest.TestCase):
    def assert_refused(self, kind, words, call, *arguments):
        with self.assertRaises(kind) as caught:
            call(*arguments)
        self.assertIn(words, str(caught.exception))
        return caught.exception

    def test_numbers_out_of_range_are_refused_with_the_status(self):
        words = "sci_machine_open: SCI_RANGE: a number is outside its limits"
        self.assertEqual(self.assert_refused(OutOfRange, words, Machine, 17, 1, 1, 1).status, Status.RANGE)
        for size in ((258, 1, 1, 1), (-1, 1, 1, 1), (1, 1, 1, 1 << 32)):
            self.assert_refused(ValueError, words, Machine, *size)
        machine = stored()
        self.assert_refused(OutOfRange, "sci_op.line: SCI_RANGE", machine.step, Event.issue(0, Op.load(256, 0)))
        self.assert_refused(OutOfRange, "sci_op.datum: SCI_RANGE", machine.step, Event.issue(0, Op.store(0, 0, 1 << 64)))
        self.assert_refused(OutOfRange, "SCI_RANGE", machine.held, 2, 0)
        self.assert_refused(OutOfRange, "SCI_RANGE", machine.step, Event(9, 0))
        self.assert_refused(OutOfRange, "SCI_RANGE", Logs(1, 1).set_last, 0, Contents(0, (1 << 64,) * 8))
        self.assert_refused(ValueError, "8 words are wanted, and not 3", Logs(1, 1).set_last, 0, Contents(0, (1, 2, 3)))

    def test_other_types_are_refused(self):
        for size in (("2", 1, 1, 1), (1.5, 1, 1, 1), (None, 1, 1, 1)):
            self.assertRaises(TypeError, Machine, *size)
        self.assertRaises(TypeError, Machine)
        node = Node(0, 1, 1, 1, 1)
        self.assertRaises(TypeError, node.issue, Op("load", 0, 0))
        for packet in ("text", 16, None):
            self.assertRaises(TypeError, node.serve, packet)
        self.assertRaises(BadPacket, node.serve, bytearray(3))

    def test_what_is_not_enabled_changes_nothing(self):
        machine = stored()
        before = machine.logs().text()
        self.assert_refused(NotEnabled, "sci_machine_step_seen: SCI_NOT_ENABLED: not enabled, or not there", machine.step, Event.perform(1, 0))
        self.assertFalse(machine.try_step(Event.perform(1, 0)))
        self.assertEqual(machine.obstacle(Event.perform(1, 0)), Obstacle.NOTHING_PENDING)
        self.assertEqual(machine.logs().text(), before)

    def test_what_is_closed_is_refused(self):
        with stored() as machine:
            self.assertEqual(machine.last(0).words[3], 42)
        machine.close()
        lane = machine.packets(Lane.ANSWERS, 0, 0)
        for call in (machine.settle, machine.clone, machine.logs, lambda: machine.try_step(Event.reply(0)), lambda: next(lane)):
            self.assert_refused(Misuse, "SCI_MISUSE: the object is empty", call)
        logs = Logs.read(LOG)
        entries = iter(logs)
        next(entries)
        logs.close()
        self.assert_refused(Misuse, "SCI_MISUSE", lambda: list(entries))

    def test_memory_errors_are_those_of_python(self):
        self.assertTrue(issubclass(NoMemory, MemoryError))


class Machines(unittest.TestCase):
    def test_steps_say_what_they_did(self):
        machine = Machine(2, 4, 2, 16)
        self.assertEqual(machine.step(Event.issue(1, STORE)), (None, None))
        self.assertEqual(machine.pending(1, 0), (STORE, 0))
        asked = machine.step(Event.ask(1, 0, AskKind.MREAD)).packet
        self.assertEqual((asked.command, asked.source, asked.target, asked.is_request), (Command.MREAD, 1, 0, True))
        self.assertEqual(list(machine.packets(Lane.REQUESTS, 1, 0)), [asked])
        self.assertEqual(list(machine.packets(Lane.ANSWERS, 0, 1)), [])
        self.assertTrue(machine.held(1, 0).waits)
        machine.step(Event.issue(1, Op.load(2, 0)))
        machine.step(Event.ask(1, 2, AskKind.FREAD))
        self.assertEqual([it.line for it in machine.packets(Lane.REQUESTS, 1, 0)], [0, 2])
        machine.step(Event.serve(1, 0))
        self.assertEqual(machine.answer(0).command, Command.MDATA)
        self.assertIsNone(machine.answer(1))

    def test_states_are_seen(self):
        machine = stored()
        held = machine.held(1, 0)
        self.assertEqual((held.state, held.contents.words[3], held.forward), (State.HEAD, 42, None))
        self.assertEqual(machine.home(0, 0), (HomeState.GONE, 1, None))
        self.assertIsNone(machine.home(1, 0))
        self.assertEqual((machine.home(1, 3).state, machine.home(0, 3), machine.home(0, 2).state), (HomeState.HOME, None, HomeState.HOME))
        self.assertEqual((machine.sharing(0), machine.authority(0), machine.authority(1)), ([1], 1, None))

    def test_a_machine_comes_to_rest(self):
        machine = stored()
        machine.step(Event.issue(0, Op.load(0, 3)))
        self.assertGreater(machine.settle(), 0)
        self.assertEqual([(it.node, it.op, it.word, it.version) for it in machine.logs()], [(0, Op.load(0, 3), 42, 1), (1, STORE, None, 1)])
        self.assertTrue(machine.logs().audit())

    def test_operations_do_what_they_say(self):
        ops = (Op.store(0, 0, 12), Op.mask_swap(0, 0, mask=10, datum=6), Op.compare_swap(0, 0, expected=6, datum=20), Op.fetch_add(0, 0, 5),
               Op.bounded_add(0, 0, bound=25, datum=1), Op.bounded_add(0, 0, bound=0, datum=1), Op.wrap_add(0, 0, bound=26, datum=3), Op.load(0, 0))
        machine = Machine(1, 1, 1, 16)
        for op in ops:
            machine.step(Event.issue(0, op))
            machine.settle()
        self.assertEqual([(it.op, it.word) for it in machine.logs()], list(zip(ops, (None, 12, 6, 20, 25, 25, 26, 3))))

    def test_a_run_is_written_and_made_again(self):
        machine, text = Machine(2, 4, 2, 16), size_text(2, 4, 2)
        events = (Event.issue(1, STORE), Event.ask(1, 0, AskKind.MREAD), Event.reply(1), Event.serve(1, 0), Event.reply(0), Event.accept(0, 1),
                  Event.perform(1, 0))
        for event in events:
            text += event.text()
            machine.try_step(event)
        self.assertEqual(text, "machine 2 4 2\nissue 1 store 0 3 42\nask 1 0 mread\nreply 1\nserve 1 0\nreply 0\naccept 0 1\nperform 1 0\n")
        again, dead = Machine.replay(text, 16)
        self.assertEqual(dead, Dead(1, 2, Obstacle.NO_ANSWER_WAITS))
        self.assertEqual((again.last(0), again.held(1, 0)), (machine.last(0), machine.held(1, 0)))
        self.assertEqual(Machine.replay(size_text(1, 1, 1), 1)[1], None)
        with self.assertRaises(BadText) as caught:
            Machine.replay(text + "reply 2\n", 16)
        self.assertEqual((caught.exception.line, caught.exception.kind), (9, TextKind.RANGE))
        with self.assertRaises(OutOfRange):
            Machine.replay(text, 0)

    def test_requests_may_be_refused(self):
        machine = Machine(2, 1, 1, 16)
        for event in (Event.issue(1, Op.load(0, 0)), Event.ask(1, 0, AskKind.FREAD), Event.refuse(1, 0)):
            machine.step(event)
        self.assertEqual((machine.answer(0).command, machine.answer(0).target), (Command.BUSY, 1))

    def test_copies_share_nothing(self):
        machine = stored()
        copy = deepcopy(machine)
        self.assertTrue(copy.try_step(Event.issue(0, STORE)))
        self.assertEqual((machine.pending(0, 0), copy.pending(0, 0)), (None, (STORE, 0)))


class Nodes(unittest.TestCase):
    def by_hand(self, node, came):
        """What a turn does, call by call."""
        left, sent = [], []

        def reply():
            if (data := node.take_answer()) is not None:
                sent.append(Packet.decode(data)[0])

        node.begin_turn()
        reply()
        for packet in came:
            try:
                node.accept(packet.encode())
            except (NotEnabled, OutOfRange):
                left.append(packet)
        requests, left = left, []
        for packet in requests:
            decision = node.decide(packet.encode())
            if decision == Decision.KEEP:
                left.append(packet)
                continue
            (node.serve if decision == Decision.TO_SERVE else node.refuse)(packet.encode())
            reply()
        for _ in range(4):
            want = node.next()
            if want is None or want.kind == WantKind.PERFORM:
                return tuple(left), tuple(sent), want
            sent.append(Packet.decode(node.ask(want.line, want.asks))[0])
        return tuple(left), tuple(sent), None

    def test_a_turn_is_its_calls(self):
        draw, nodes, ways = random.Random(7), [Node(it, 4, 8, 3, 400) for it in range(4)], [[] for _ in range(4)]
        for _ in range(1500):
            me = draw.randrange(4)
            node, line = nodes[me], draw.randrange(8)
            if node.pending(line) is None:
                node.issue(draw.choice([Op.load(line, 0), Op.fetch_add(line, 0, 1)]))
            count = draw.randint(0, len(ways[me]))
            came, later = ways[me][:count], ways[me][count:]
            copy = node.clone()
            turn = node.turn(came)
            self.assertEqual(turn, self.by_hand(copy, came))
            self.assertEqual([node.held(it) for it in range(8)], [copy.held(it) for it in range(8)])
            self.assertEqual((node.first_sender(), node.home_state(me)), (copy.first_sender(), copy.home_state(me)))
            ways[me] = [*turn.left, *later]
            for packet in turn.sent:
                ways[packet.target].append(packet)
            if turn.want:
                node.perform(turn.want.line)

    def test_nodes_work_by_turns(self):
        nodes, ways, entries, issued = [Node(it, 3, 2, 2, 50) for it in range(3)], [[], [], []], [], [0, 0, 0]
        for _ in range(10_000):
            for me, node in enumerate(nodes):
                if issued[me] < 50 and node.pending(issued[me] % 2) is None:
                    node.issue(Op.fetch_add(issued[me] % 2, 0, 1))
                    issued[me] += 1
                turn = node.turn(ways[me])
                ways[me] = list(turn.left)
                for packet in turn.sent:
                    ways[packet.target].append(packet)
                if turn.want:
                    self.assertEqual(turn.want.kind, WantKind.PERFORM)
                    entries.append(node.perform(turn.want.line))
        self.assertEqual((len(entries), ways), (150, [[], [], []]))
        logs = Logs(3, 2)
        logs.extend(entries)
        for line in range(2):
            logs.set_last(line, max(it for node in nodes for it in (node.home(line), node.held(line).contents) if it))
        self.assertTrue(logs.audit() and logs.order())
        stray = Packet(0, Command.MREAD, 1, 0, 0, 0xFFFF)
        self.assertEqual(Node(1, 3, 2, 2, 50).turn([stray]), ((stray,), (), None))

    def test_a_copy_goes_its_own_way(self):
        node = Node(1, 2, 4, 2, 2)
        node.issue(STORE)
        copy = deepcopy(node)
        node.issue(Op.load(line=1, word=0))
        with self.assertRaises(Full):
            node.issue(Op.load(line=2, word=0))
        with self.assertRaises(NotEnabled):
            node.issue(Op.load(line=1, word=0))
        self.assertEqual((copy.pending(0), copy.pending(1)), ((STORE, 0), None))
        self.assertEqual((copy.issue(Op.load(line=3, word=0)), copy.next()), (1, (WantKind.ASK, 0, AskKind.MREAD)))

    def test_requests_go_out_and_answers_come_back(self):
        home, node = Node(0, 2, 4, 2, 16), Node(1, 2, 4, 2, 16)
        self.assertEqual(node.issue(STORE), 0)
        self.assertRaises(NotEnabled, node.issue, STORE)
        want = node.next()
        self.assertEqual((want.kind, want.line, want.asks), (WantKind.ASK, 0, AskKind.MREAD))
        request = node.ask(0, AskKind.MREAD)
        self.assertEqual((request[1], len(request), node.held(0).waits), (0, 16, True))
        self.assertEqual(home.decide(request), Decision.TO_SERVE)
        self.assertRaises(BadPacket, home.serve, request[:15])
        self.assertRaises(OutOfRange, node.serve, request)
        self.assertIsNone(home.take_answer())
        home.serve(request)
        self.assertEqual((home.answer().command, home.home_state(0).state, home.first_sender()), (Command.MDATA, HomeState.GONE, 0))
        node.accept(home.take_answer())
        self.assertEqual([node.perform(it.line).version for it in node.wants() if it.kind == WantKind.PERFORM], [1])
        self.assertEqual((home.home(0), home.home(2).version, node.home_state(0), node.pending(0)), (None, 0, None, None))
        self.assertEqual((home.is_at_rest, node.is_at_rest), (True, False))

    def test_packets_are_read_and_written(self):
        node = Node(1, 2, 4, 2, 16)
        node.issue(Op.load(0, 0))
        data = node.ask(0, AskKind.FREAD)
        packet, used = Packet.decode(data + b"beyond")
        self.assertEqual((packet.command, used, packet.contents), (Command.FREAD, 16, None))
        self.assertEqual((packet.encode(), Packet.from_words(packet.to_words())), (data, (packet, 2)))
        self.assertEqual(list(packets(data + data)), [packet, packet])
        full = packet._replace(command=Command.MDATA, contents=Contents(3, tuple(range(8))))
        self.assertEqual((Packet.decode(full.encode()), len(full.to_words())), ((full, 88), 11))
        self.assertEqual(list(packets(full.encode() + data + full.encode())), [full, packet, full])
        for wrong, status in ((data[:15], Status.SHORT), (b"\0" * 16, Status.UNKNOWN_COMMAND), (data[:13] + b"\1" + data[14:], Status.BAD_OFFSET)):
            with self.assertRaises(BadPacket) as caught:
                Packet.decode(wrong)
            self.assertEqual(caught.exception.status, status)
        self.assertRaises(OutOfRange, packet._replace(line=1 << 42).encode)
        self.assertRaises(BadPacket, packet._replace(command=0x55).encode)


class Log(unittest.TestCase):
    def test_lines_are_those_of_the_programs(self):
        self.assertEqual(Packet(0, Command.MREAD, 1, 5, 2, 0xFFFF).text(), "mread to 0 from 1 control 5 line 2\n")
        self.assertEqual("".join(it.text() for it in Logs.read(LOG)), LOG.partition("0 0 0 0 0 0 0\n")[2])
        with self.assertRaises(OutOfRange):
            Entry(0, 0, STORE, 7, 1).text()

    def test_texts_are_read_and_written(self):
        logs = Logs.read(LOG)
        self.assertEqual((logs.text(), logs.size, len(logs), logs.last(0).words[0]), (LOG, (2, 1), 2, 7))
        self.assertEqual(Logs.read(LOG.encode()).text(), LOG)
        self.assertEqual((len(logs.of(1)), logs.of(1)[-1].word, logs.of(1)[:5], logs.of(0)[0].word), (1, 7, list(logs)[1:], None))
        self.assertRaises(IndexError, logs.of, 2)
        self.assertRaises(IndexError, logs.of(0).__getitem__, 1)

    def test_what_is_wrong_is_said_in_words(self):
        self.assertEqual(Logs.read(LOG).explain(), "lawful\n")
        words = Logs.read(example("wrong-reply.log")).explain()
        self.assertIn("line 4: node 1 serial 0 loads word 0 at version 2 and got 7; the word there is 8, made by node 2 serial 0\n", words)

    def test_what_is_no_log_is_refused_with_its_first_fault(self):
        with self.assertRaises(BadText) as caught:
            Logs.read(LOG.replace("load", "zero"))
        self.assertEqual((caught.exception.line, caught.exception.kind), (4, TextKind.SYNTAX))
        self.assertEqual(str(caught.exception), "sci_logs_read: SCI_TEXT: the text has a fault: line 4: syntax")

    def test_entries_are_pushed_and_judged(self):
        logs, copy = Logs.read(LOG), Logs(2, 1)
        copy.extend(logs)
        copy.set_last(0, logs.last(0))
        self.assertEqual(copy.text(), LOG)
        copy.push(Entry(1, 1, Op.load(0, 0), 8, 1))
        verdict = copy.audit()
        self.assertFalse(verdict)
        self.assertEqual((verdict, str(verdict)), ((VerdictKind.WRONG_REPLY, 0, 1, 1), "wrong-reply line 0 node 1 serial 1"))
        self.assertEqual((copy.order(), copy.order_kind()), ((OrderKind.UNLAWFUL, ()), OrderKind.UNLAWFUL))
        self.assertRaises(OutOfRange, copy.push, Entry(1, 2, Op.load(0, 0), None, 1))
        self.assertEqual(str(Logs.read(example("last-differs.log")).audit()), "last-differs line 0")

    def test_logs_that_were_cut_off_have_any_last_contents(self):
        with Logs(nodes=1, lines=1) as logs:
            logs.push(Entry(0, 0, STORE, None, 1))
            self.assertEqual(logs.audit().kind, VerdictKind.LAST_DIFFERS)
            self.assertTrue(logs.audit_cut_off())
            logs.push(Entry(0, 1, STORE, None, 1))
            self.assertEqual(logs.audit_cut_off().kind, VerdictKind.VERSION_TWICE)

    def test_the_word_that_a_wrong_reply_should_have_had(self):
        logs = Logs.read(LOG.replace("= 7 @1", "= 8 @1"))
        self.assertEqual(logs.audit(), Verdict(VerdictKind.WRONG_REPLY, 0, 1, 0))
        self.assertEqual(logs.wanted(), (7, Entry(0, 0, Op.store(0, 0, 7), None, 1)))
        self.assertEqual(Logs.read(LOG.replace("load 0 0", "load 0 1")).wanted(), (0, None))
        self.assertIsNone(Logs.read(LOG).wanted())
        logs.set_first(0, Contents(0, (0,) * 8))
        self.assertRaises(OutOfRange, logs.wanted)

    def test_orders_and_cycles_are_found(self):
        order = Logs.read(LOG).order()
        self.assertTrue(order)
        self.assertEqual([it.node for it in order.entries], [0, 1])
        logs = Logs.read(example("store-buffer.log"))
        self.assertEqual(Logs(1, 1).order(), (OrderKind.ORDER, ()))
        self.assertEqual((logs.order().kind, logs.order_kind(), bool(logs.audit())), (OrderKind.CYCLE, OrderKind.CYCLE, True))
        self.assertEqual([(it.node, it.serial) for it in logs.order().entries], [(0, 0), (1, 1), (1, 0), (0, 1)])


def load_tests(loader, tests, pattern):
    tests.addTests(doctest.DocTestSuite(lichenknit))
    return tests


def pages():
    with open("/proc/self/statm", encoding="ascii") as file:
        return int(file.read().split()[1])


class Scoreboards(unittest.TestCase):
    def test_entries_are_judged_as_they_come(self):
        with Scoreboard(nodes=2, lines=2) as board:
            board.begin(1, Contents(5, (7, 0, 0, 0, 0, 0, 0, 0)))
            store = Entry(0, 0, Op.store(1, 0, 8), None, 6)
            load = Entry(1, 0, Op.load(1, 0), 8, 6)
            self.assertIsNone(board.tell(load))
            self.assertEqual(board.tell(store), Verdict(VerdictKind.LAWFUL))
            self.assertEqual(board.contents(1), Contents(6, (8, 0, 0, 0, 0, 0, 0, 0)))
            self.assertEqual(board.tell(load._replace(word=7)), Verdict(VerdictKind.WRONG_REPLY, 1, 1, 0))
            self.assertEqual(board.tell(store._replace(node=1)), Verdict(VerdictKind.VERSION_TWICE, 1, 1, 0))
            self.assertEqual(board.tell(store._replace(version=5)), Verdict(VerdictKind.VERSION_MISSING, 1, 0, 0))
            self.assertTrue(board.tell(load))
            self.assertEqual(board.tell(load), Verdict(VerdictKind.OUT_OF_ORDER, 1, 1, 0))
            with self.assertRaises(OutOfRange):
                board.tell(load._replace(node=2))
            with self.assertRaises(OutOfRange):
                board.contents(2)
        self.assertRaises(Misuse, board.tell, load)


class ManyCalls(unittest.TestCase):
    def test_a_hundred_thousand_calls_keep_nothing(self):
        draw = random.Random(1)
        machine = Machine(2, 2, 2, 65536)

        def calls(count):
            for _ in range(count):
                machine.try_step(Event(draw.randrange(2, 7), draw.randrange(2), draw.randrange(2), draw.randrange(2), draw.randrange(9)))
                machine.held(0, 0)
            for _ in range(count // 50):
                Logs.read(LOG).order()
                machine.clone().close()
            gc.collect()

        calls(5000)
        before = pages()
        calls(50000)
        self.assertLess(pages() - before, 256)

    def test_a_call_waits_until_the_one_before_has_ended(self):
        machine = stored()
        calls = (lambda: machine.try_step(Event.reply(0)), lambda: machine.held(0, 0), lambda: machine.logs().text())
        with machine._lock:
            threads = [threading.Thread(target=it) for it in calls]
            for it in threads:
                it.start()
                it.join(0.05)
            self.assertTrue(all(it.is_alive() for it in threads))
        for it in threads:
            it.join(5)
        self.assertFalse(any(it.is_alive() for it in threads))

    def test_threads_may_share_an_object(self):
        machine, counts = Machine(4, 4, 2, 65536), []

        def drive(node):
            draw = random.Random(node)
            made = 0
            for _ in range(4000):
                op = Op.fetch_add(draw.randrange(4), 0, 1)
                event = Event(draw.randrange(7), draw.randrange(4), draw.randrange(4), op.line, draw.randrange(9), op)
                made += machine.try_step(event) and event.kind == 1
            counts.append(made)

        threads = [threading.Thread(target=drive, args=(it,)) for it in range(4)]
        for it in threads:
            it.start()
        for it in threads:
            it.join()
        logs = machine.logs()
        self.assertEqual((len(counts), len(logs), bool(logs.audit())), (4, sum(counts), True))


@unittest.skipUnless(shutil.which(os.environ.get("LICHENKNIT_SCIVIEW") or "sciview"), "sciview is missing")
class Traces(unittest.TestCase):
    BUFFER = [Access.store(0, 8, 1), Access.load(0, 16, 0), Access.store(1, 16, 1), Access.load(1, 8, 0)]

    def test_a_coherent_trace(self):
        found = judge_accesses([Access.store(0, 8, 5), Access.load(1, 8, 5), Access.atomic(1, 8, 5, 6)], {8: 6}, order=True)
        self.assertTrue(found)
        self.assertEqual((found.freedom, found.consistency, found.places), (Freedom.FORCED, Consistency.SEQUENTIAL, ()))
        self.assertIsNone(found.address)
        self.assertTrue(judge_accesses([]))

    def test_one_order(self):
        self.assertTrue(judge_accesses(self.BUFFER))
        found = judge_accesses(self.BUFFER, order=True)
        self.assertFalse(found)
        self.assertEqual((found.kind, found.consistency), (JudgementKind.COHERENT, Consistency.CYCLE))
        self.assertEqual(sorted(found.places), [0, 1, 2, 3])

    def test_a_trace_that_is_not_coherent(self):
        found = judge_accesses([Access.store(0, 8, 5), Access.load(1, 8, 6)])
        self.assertEqual((found.kind, found.address, found.witness, found.places), (JudgementKind.NOT_COHERENT, 8, Witness.UNWRITTEN, (1,)))
        self.assertIsNone(found.freedom)
        late = [Access.store(0, 8, 5, 100, 110), Access.load(1, 8, 0, 120, 125)]
        self.assertTrue(judge_accesses(late))
        self.assertFalse(judge_accesses(late, times=True))
        self.assertEqual(judge_accesses([Access.store(0, 8, 5)], {8: 4}).witness, Witness.UNWRITTEN_LAST)

    def test_many_operations_are_named(self):
        chain = [Access.store(0, 8, word) for word in range(1, 30)] + [Access.load(1, 8, word) for word in (29, 1)]
        self.assertGreater(len(judge_accesses(chain).places), 1)

    def test_what_is_no_operation_is_refused(self):
        for access in (Access.load(16, 8, 0), Access.load(0, 8, 0, 2, 1), Access.load(0, 1 << 64, 0)):
            self.assertRaises(OutOfRange, judge_accesses, [access])


class Judging(unittest.TestCase):
    def test_a_coherent_trace(self):
        found = judge("0: M[8] := 1\n1: M[8] == 1\n")
        self.assertEqual(found[:5], (True, None, (), "forced", None))
        self.assertTrue(found)
        self.assertEqual(judge("0: M[8] := 1\n1: M[8] := 2\n").versions, "free")

    def test_one_order(self):
        trace = example("store-buffer.trace")
        self.assertTrue(judge(trace))
        self.assertFalse(judge(trace, order=True))
        self.assertIs(judge(trace, order=True).sequential, False)
        self.assertIs(judge("0: M[8] := 1\n", order=True).sequential, True)

    def test_a_trace_that_is_not_coherent(self):
        found = judge(example("stale-read.trace"))
        self.assertEqual((found.coherent, found.address, bool(found)), (False, 8, False))
        self.assertIn("line 5", found.witness[1])
        self.assertEqual(str(found).splitlines()[1:], list(found.witness))

    def test_times_and_limit(self):
        late = example("late-read.trace")
        self.assertEqual([judge(late).coherent, judge(late, times=True).coherent], [True, False])
        twice = "0: M[8] := 1\n1: M[8] := 1\n"
        self.assertEqual([judge(twice).coherent, judge(twice, limit=0).coherent], [True, None])
        for limit in (-1, 1 << 64):
            self.assertRaises(OutOfRange, judge, twice, limit=limit)

    def test_a_text_that_is_no_trace(self):
        with self.assertRaisesRegex(BadTrace, "line 2, column 9: expected") as raised:
            judge("0: M[8] := 1\n0: M[8] = 2\n")
        self.assertEqual(raised.exception.line, 2)


if __name__ == "__main__":
    unittest.main()
