"""python/belikumba.py gives what docs/RULES.md says: its worked cases, each answer, and the same lines as host/copy.c."""

import os
import re
import sys
import unittest

ROOT = os.path.join(os.path.dirname(os.path.abspath(__file__)), "..", "..")
sys.path.insert(0, os.path.join(ROOT, "python"))

from belikumba import (
    INTERFACE, Answer, Clock, Control, Descriptor, Engine, Event, Judged, Monitor, Refused, Register, Status, Step, Verdict,
    count, judge, plan,
)


class Cases(unittest.TestCase):
    def refused(self, answer, call, *arguments, **named):
        with self.assertRaises(Refused) as caught:
            call(*arguments, **named)
        self.assertIs(caught.exception.answer, answer)
        self.assertIn(f"answer {answer.value}: ", str(caught.exception))


class Header(unittest.TestCase):
    """The numbers of the module are those of include/belikumba.h."""

    def test_numbers(self):
        with open(os.path.join(ROOT, "include", "belikumba.h")) as file:
            text = re.sub(r"/\*.*?\*/", "", file.read(), flags=re.S)
        numbers = {name: eval(value) for name, value in re.findall(r"BELIKUMBA_(\w+) = ([^,}]+)", text)}
        for kind, prefix in (
            (Answer, ""), (Register, ""), (Event, ""), (Verdict, ""), (Control, "CDMACR_"), (Status, "CDMASR_"),
        ):
            for name, member in kind.__members__.items():
                self.assertEqual(numbers[prefix + name], member.value, prefix + name)
        for kind, words in (("ENGINE", Engine().words), ("MONITOR", Monitor().words)):
            self.assertEqual(int(re.search(rf"define BELIKUMBA_{kind}_WORDS (\d+)", text).group(1)), len(words))
        self.assertEqual(int(re.search(r"define BELIKUMBA_INTERFACE (\d+)", text).group(1)), INTERFACE)


class Plans(Cases):
    """RULES.md 10, P1 to P8, as tests/plan/plan.c has them."""

    def test_worked_cases(self):
        for arguments, bursts in (
            ((4, 16, 0, 1), [(0, 1)]),
            ((4, 16, 0, 64), [(0, 64)]),
            ((4, 16, 0, 65), [(0, 64), (64, 1)]),
            ((4, 16, 3, 64), [(3, 61), (64, 3)]),
            ((4, 16, 4088, 16), [(4088, 8), (4096, 8)]),
            ((4, 16, 4294967295, 1), [(4294967295, 1)]),
            ((128, 256, 0, 8192), [(0, 4096), (4096, 4096)]),
        ):
            self.assertEqual(plan(*arguments), bursts)
        self.assertEqual(plan(4, 16, 0, 65, places=4), [(0, 64), (64, 1)])

    def test_longest(self):
        bursts = plan(4, 2, 4095, 8388607)
        self.assertEqual((len(bursts), sum(count for _, count in bursts)), (1048577, 8388607))

    def test_refusals(self):
        self.refused(Answer.PLAN_RANGE, plan, 4, 16, 4294967295, 2)
        self.refused(Answer.PLAN_RANGE, plan, 4, 16, 0, 0)
        self.refused(Answer.PLAN_RANGE, plan, 4, 16, 0, 8388608)
        self.refused(Answer.PLAN_ROOM, plan, 4, 16, 0, 65, places=3)
        self.refused(Answer.PLAN_ROOM, plan, 4, 16, 0, 1, places=0)
        self.refused(Answer.SETTINGS, plan, 3, 16, 0, 0)
        self.refused(Answer.SETTINGS, plan, 4, 512, 0, 1)


class Counts(Cases):
    """RULES.md 3.4: page by page, the words of each divided by the beats and rounded up."""

    def test_worked_cases(self):
        for arguments, bursts in (
            ((4, 16, 0, 1), 1),
            ((4, 16, 0, 64), 1),
            ((4, 16, 0, 65), 2),
            ((4, 16, 3, 64), 2),  # 17 words
            ((4, 16, 4088, 16), 2),  # 2 words in each of two pages
            ((4, 16, 4294967295, 1), 1),
            ((128, 256, 0, 8192), 2),  # two pages of 32 words
            ((4, 16, 0, 8388607), 131072),  # 2048 pages of 1024 words, the last one short by a byte
            ((4, 2, 4095, 8388607), 1048577),  # 1 word; 2047 pages of 1024 words; 1024 words
            ((128, 256, 4095, 8388607), 2049),  # 1 word; 2047 pages of 32 words; 32 words
        ):
            self.assertEqual(count(*arguments), bursts)

    def test_room(self):
        for arguments in ((4, 16, 4088, 16), (4, 2, 5, 20000), (64, 32, 4294947296, 20000)):
            bursts = count(*arguments)
            self.assertEqual(len(plan(*arguments)), bursts)
            self.assertEqual(plan(*arguments, places=2 * bursts), plan(*arguments))
            self.refused(Answer.PLAN_ROOM, plan, *arguments, places=2 * bursts - 1)

    def test_refusals(self):
        self.refused(Answer.PLAN_RANGE, count, 4, 16, 4294967295, 2)
        self.refused(Answer.PLAN_RANGE, count, 4, 16, 0, 0)
        self.refused(Answer.PLAN_RANGE, count, 4, 16, 0, 8388608)
        self.refused(Answer.SETTINGS, count, 3, 16, 0, 0)
        self.refused(Answer.SETTINGS, count, 4, 512, 0, 1)
        self.assertRaises(OverflowError, count, 4, 16, 0, 1 << 32)
        self.assertRaises(OverflowError, count, 4, 16, -1, 1)


class Judgements(Cases):
    """RULES.md 4: what a group of bytes answers, at which byte, and which window holds it."""

    OKAY = Judged(Verdict.OKAY, None, None)

    def slave(self, place, window):
        return Judged(Verdict.SLAVE_ERROR, place, window)

    def decode(self, place):
        return Judged(Verdict.DECODE_ERROR, place, None)

    def test_windows(self):
        overlap = [(1040, 16), (1032, 16)]  # 1040 to 1055, and 1032 to 1047
        empty = [(1028, 0), (1008, 28)]  # none, and 1008 to 1035
        for windows, start, count, judged in (
            (overlap, 1024, 32, self.slave(1032, 1)),  # the lowest sick byte is in the second window alone
            (overlap, 1040, 8, self.slave(1040, 0)),  # both hold it
            (overlap, 1048, 8, self.slave(1048, 0)),
            (overlap, 1024, 8, self.OKAY),
            (overlap, 1056, 8, self.OKAY),
            (overlap[::-1], 1024, 32, self.slave(1032, 0)),
            (overlap[::-1], 1040, 8, self.slave(1040, 0)),
            (empty, 1024, 16, self.slave(1024, 1)),  # the window starts before the bytes
            (empty, 1028, 1, self.slave(1028, 1)),
            (empty, 1036, 16, self.OKAY),
            ([(0, 1)], 0, 4, self.slave(0, 0)),
            ([(4294967288, 16)], 0, 8, self.OKAY),  # no window wraps
            ([(32760, 4294967295)], 32756, 8, self.slave(32760, 0)),
            ([(0, 0)] * 15 + [(7, 1)], 0, 8, self.slave(7, 15)),
            ([(0, 32768)], 16, 0, self.OKAY),
        ):
            self.assertEqual(judge(32768, windows, start, count), judged)

    def test_end_of_memory(self):
        sick = [(32754, 1)]
        for memory, windows, start, count, judged in (
            (32768, sick, 32752, 16, self.slave(32754, 0)),
            (32768, sick, 32752, 17, self.decode(32768)),  # the sick byte is lower, and not named
            (32768, [], 32767, 1, self.OKAY),
            (32768, [], 32768, 1, self.decode(32768)),
            (32768, [(32768, 9)], 32770, 1, self.decode(32770)),  # a window past the end holds no byte of the memory
            (32768, [], 40000, 0, self.OKAY),
            (32768, [], 4294967295, 4294967295, self.decode(4294967295)),
            (16777216, [], 0, 16777216, self.OKAY),
            (16777216, [], 1, 4294967295, self.decode(16777216)),
            (0, [], 0, 1, self.decode(0)),
            (0, [], 0, 0, self.OKAY),
        ):
            self.assertEqual(judge(memory, windows, start, count), judged)
        for memory in (bytearray(64), bytes(64), memoryview(bytes(64))):
            self.assertEqual(judge(memory, [(60, 8)], 56, 8), self.slave(60, 0))
            self.assertEqual(judge(memory, [(60, 8)], 56, 9), self.decode(64))

    def test_refusals(self):
        self.refused(Answer.MEMORY_SIZE, judge, 16777217, [(0, 0)] * 17, 0, 0)
        self.refused(Answer.MEMORY_SIZE, judge, bytearray(16777217), [], 0, 1)
        self.refused(Answer.WINDOW_COUNT, judge, 16777216, [(0, 0)] * 17, 0, 0)
        for arguments in ((-1, [], 0, 0), (1 << 64, [], 0, 0), (0, [(0, 1 << 32)], 0, 0), (0, [], 1 << 32, 0), (0, [], 0, -1)):
            self.assertRaises(OverflowError, judge, *arguments)
        self.assertRaises(TypeError, judge, None, [], 0, 0)

    def test_fault(self):  # as host/name_chip.c
        memory = bytearray(12288)
        windows = [(330, 2), (4170, 8)]
        engine = Engine()
        engine.write(Register.SA, 4096)
        engine.write(Register.DA, 256)
        engine.write(Register.BTT, 100)
        self.assertEqual(engine.step(memory, windows), Step(Event.MOVE, 256, 64))
        self.assertEqual(engine.step(memory, windows), Step(Event.FAULT, 4170, 5))
        self.assertEqual(judge(memory, windows, 4160, 36), self.slave(4170, 1))
        self.assertEqual(judge(memory, windows, 320, 36), self.slave(330, 0))

    def test_fault_in_queue(self):  # examples/fault-place-drain
        memory = bytearray(32768)
        engine = Engine(beats=2)
        engine.write(Register.CDMACR, Control.KEY_HOLE_READ)
        engine.write(Register.SA, 1024)
        engine.write(Register.DA, 4086)
        engine.write(Register.BTT, 12)
        self.assertEqual(engine.step(memory), Step(Event.MOVE, 4086, 6))
        self.assertEqual(engine.step(memory, [(1027, 1), (1025, 1)]), Step(Event.FAULT, 1025, 5))

    def test_halts(self):
        memory = bytearray(4096)
        Descriptor(source=1024, destination=2048, control=8).store(memory, 64)
        engine = Engine()
        engine.write(Register.CDMACR, Control.SGMODE)
        engine.write(Register.CURDESC, 64)
        engine.write(Register.TAILDESC, 64)
        fetching = Engine(words=engine.words)
        self.assertEqual(fetching.step(memory, [(70, 30)]), Step(Event.HALT, 64, 9))
        self.assertEqual(judge(memory, [(70, 30)], 64, 32), self.slave(70, 0))
        self.assertEqual(engine.run(memory, most=2), 2)  # fetch and move
        self.assertEqual(engine.step(memory, [(70, 22), (95, 1)]), Step(Event.HALT, 64, 9))  # the status word is 92 to 95
        self.assertEqual(judge(memory, [(70, 22), (95, 1)], 64 + 28, 4), self.slave(95, 1))


class Engines(Cases):
    def test_stale_descriptor(self):  # S1
        memory = bytearray(4096)
        Descriptor(source=1024, destination=2048, control=8, status=0x80000000).store(memory, 0)
        engine = Engine()
        engine.write(Register.CDMACR, Control.SGMODE)
        engine.write(Register.CURDESC, 0)
        engine.write(Register.TAILDESC, 0)
        self.assertEqual(engine.step(memory), Step(Event.HALT, 0, 8))
        self.assertEqual(engine.read(Register.CDMASR), 0x0001410A)

    def test_chain_of_one(self):  # S2
        memory = bytearray(4096)
        Descriptor(source=1024, destination=0, control=65).store(memory, 2048)
        engine = Engine()
        engine.write(Register.CDMACR, Control.SGMODE)
        engine.write(Register.CURDESC, 2048)
        engine.write(Register.TAILDESC, 2048)
        self.assertEqual(engine.run(memory), 4)
        self.assertEqual(Descriptor.load(memory, 2048).status, 0x80000000)

    def test_runs_joined(self):  # examples/joined-runs
        runs = {}
        for budgets in ((7,), (3, 4), (2, 0, 1, 9)):
            memory = bytearray(range(256)) + bytearray(64)
            Descriptor(next=64, source=100, destination=200, control=65).store(memory, 0)
            Descriptor(next=128, source=32, destination=48, control=5).store(memory, 64)
            engine = Engine()
            engine.write(Register.CDMACR, Control.SGMODE)
            engine.write(Register.TAILDESC, 64)
            steps = [engine.run(memory, most=most) for most in budgets]
            runs[budgets] = sum(steps), engine.words, bytes(memory)
        steps, words, memory = runs[(7,)]
        self.assertEqual((steps, memory[200:265], memory[48:53]), (7, bytes(range(100, 165)), bytes(range(32, 37))))
        self.assertEqual(list(runs.values()), [(steps, words, memory)] * 3)

    def test_overlap(self):  # S3
        memory = bytearray(b"\x01\x02\x03" + bytes(61))
        engine = Engine()
        engine.write(Register.SA, 0)
        engine.write(Register.DA, 1)
        engine.write(Register.BTT, 3)
        self.assertEqual(engine.run(memory), 1)
        self.assertEqual(memory[:5], b"\x01\x01\x02\x03\x00")

    def test_refusals(self):
        engine = Engine()
        fresh = engine.words
        self.refused(Answer.OFFSET, engine.read, 44)
        self.refused(Answer.OFFSET, engine.write, 1, 0)
        self.refused(Answer.BUSY, engine.write, Register.TAILDESC, 0)
        self.refused(Answer.MEMORY_SIZE, engine.step, bytearray(16777217))
        self.refused(Answer.WINDOW_COUNT, engine.run, bytearray(16), windows=[(0, 0)] * 17)
        self.assertEqual(engine.words, fresh)
        engine.write(Register.BTT, 0)
        self.assertEqual(engine.read(Register.CDMASR) & Status.ERRORS, Status.DMAINTERR)
        self.refused(Answer.ERROR_SET, engine.write, Register.SA, 0)
        self.refused(Answer.SETTINGS, Engine(width=3).read, 0)
        self.refused(Answer.STATE, Engine(words=[4, 16, 2] + [0] * 19).read, 0)
        self.refused(Answer.STATE, getattr, Engine(words=[4, 16, 2] + [0] * 19), "interrupt_line")

    def test_key_hole(self):
        memory = bytearray(range(256))
        engine = Engine()
        engine.write(Register.CDMACR, Control.KEY_HOLE_READ)
        self.assertEqual(engine.read(Register.CDMACR), 0x00010012)
        self.assertEqual(engine.words[20:], (1, 0))
        engine.write(Register.SA, 8)
        engine.write(Register.DA, 101)
        engine.write(Register.BTT, 68)  # the example of RULES.md 6.10
        self.refused(Answer.BUSY, engine.write, Register.CDMACR, 0)
        self.assertEqual(engine.step(memory), Step(Event.MOVE, 101, 63))
        self.assertEqual(engine.run(memory), 1)
        self.assertEqual(memory[101:169], bytes((8, 9, 10, 11)) * 17)
        self.assertEqual(memory[:101] + memory[169:], bytes(range(101)) + bytes(range(169, 256)))
        engine.write(Register.CDMACR, Control.KEY_HOLE_WRITE)
        engine.write(Register.SA, 1)
        engine.write(Register.DA, 180)
        engine.write(Register.BTT, 68)
        self.assertEqual(engine.step(memory), Step(Event.MOVE, 180, 64))
        self.assertEqual(engine.step(memory), Step(Event.MOVE, 180, 4))
        self.assertEqual(memory[180:184], bytes((65, 66, 67, 68)))
        engine.write(Register.BTT, 66)  # no multiple of 4
        self.assertEqual(engine.read(Register.CDMASR) & Status.ERRORS, Status.DMAINTERR)
        engine.write(Register.CDMACR, Control.RESET)
        self.assertEqual(engine.words, Engine().words)

    def test_limits(self):
        engine = Engine()
        self.assertEqual(engine.step(bytearray(16777216), windows=[(0, 1)] * 16), Step(Event.NONE, 0, 0))
        self.assertEqual(engine.step(bytearray()), Step(Event.NONE, 0, 0))
        self.assertEqual(engine.run(bytearray(), most=0), 0)
        for call in (
            lambda: engine.read(-1),
            lambda: engine.write(0, 1 << 32),
            lambda: engine.run(bytearray(), most=65536),
            lambda: engine.step(bytearray(), windows=[(1 << 32, 0)]),
        ):
            self.assertRaises(OverflowError, call)
        self.assertRaises(ValueError, Engine, words=[4, 16])
        self.assertRaises(ValueError, Monitor, words=[0])
        self.assertRaises(TypeError, engine.step, b"not writable")


class Monitors(Cases):
    """RULES.md 10, M1 to M3."""

    def after_quiet(self, **fields):
        monitor = Monitor()
        monitor.clock(Clock(bits=1))
        return monitor.clock(Clock(bits=3, **fields)), monitor

    def test_worked_cases(self):
        self.assertEqual(self.after_quiet(burst=1, length=15, size=2, address=0xFC0)[0], (0, 0))
        self.assertEqual(self.after_quiet(burst=1, length=15, size=2, address=0xFC1)[0], (0, 0))
        self.assertEqual(self.after_quiet(burst=1, length=15, size=2, address=0xFC4)[0], (1, 37))
        self.assertEqual(self.after_quiet(burst=0, length=15)[0], (0, 0))
        self.assertEqual(self.after_quiet(burst=0, length=16)[0], (1, 42))

    def test_flags_and_snapshot(self):
        _, monitor = self.after_quiet(burst=3)
        self.assertEqual((monitor.flags, monitor.snapshot), ([39], [39]))
        self.assertEqual(monitor.clock(Clock(bits=1, burst=3)), (2, 39))
        self.assertEqual((monitor.flags, monitor.snapshot), ([39, 56], [39]))
        self.assertEqual(monitor.clock(Clock()), (0, 0))

    def test_refusals(self):
        monitor = Monitor()
        before = monitor.words
        self.refused(Answer.CLOCK, monitor.clock, Clock(bits=8))
        self.refused(Answer.CLOCK, monitor.clock, Clock(length=256))
        self.refused(Answer.SETTINGS, Monitor(width=5).clock, Clock())
        self.refused(Answer.STATE, Monitor(words=[0] * 4 + [8] + [0] * 9).clock, Clock())
        self.assertEqual(monitor.words, before)


class Lines(unittest.TestCase):
    """What host/copy.c does, with the lines that were worked out by hand for it."""

    def write(self, offset, value):
        try:
            self.engine.write(offset, value)
            answer = 0
        except Refused as refused:
            answer = refused.answer.value
        text = f"0x{value:08x}" if offset <= Register.CDMASR else str(int(value))
        self.lines.append(f"write {Register(offset).name} {text}: answer {answer}")

    def status(self):
        self.lines.append(f"read CDMASR 0x{self.engine.read(Register.CDMASR):08x}: answer 0")
        self.lines.append(f"interrupt line {int(self.engine.interrupt_line)}: answer 0")

    def step(self):
        event, first, second = self.engine.step(self.memory)
        self.lines.append(f"{event.name.lower()} {first} {second}: answer 0")

    def show(self, start, count):
        for at in range(start, start + count, 16):
            self.lines.append(f"memory {at}: {self.memory[at:min(at + 16, start + count)].hex(' ')}")

    def start(self, destination, count):
        self.write(Register.SA, 256)
        self.write(Register.DA, destination)
        self.write(Register.BTT, count)

    def simple(self):
        self.lines.append("simple mode")
        self.write(Register.CDMACR, Control.IOC_IRQEN)
        self.start(4088, 16)
        self.write(Register.SA, 0)
        self.status()
        for _ in range(3):
            self.step()
        self.status()
        self.show(4087, 18)
        self.write(Register.CDMASR, Status.IOC_IRQ)
        self.status()

    def chain(self):
        self.lines.append("chain mode")
        Descriptor(1088, 256, 2048, 65).store(self.memory, 1024)
        Descriptor(1024, 321, 2113, 31).store(self.memory, 1088)
        self.write(Register.CDMACR, Control.SGMODE | Control.IOC_IRQEN)
        self.write(Register.CURDESC, 1024)
        self.write(Register.TAILDESC, 1088)
        for _ in range(7):
            self.step()
        self.status()
        for at in (1024, 1088):
            self.lines.append(f"status of descriptor {at}: 0x{Descriptor.load(self.memory, at).status:08x}")
        self.show(2047, 98)
        self.write(Register.CDMASR, Status.IOC_IRQ)

    def window(self):
        self.lines.append("sick window")
        self.write(Register.CDMACR, Control.ERR_IRQEN)
        self.start(8184, 16)
        self.lines.append(f"ran {self.engine.run(self.memory, [(8195, 1)])} steps: answer 0")
        self.status()
        self.show(8183, 18)
        self.write(Register.BTT, 16)
        self.write(Register.CDMACR, Control.RESET)
        self.status()

    def clocks(self):
        self.lines.append("bus clocks")
        monitor = Monitor()
        burst = Clock(bits=7, address=0xFC0, length=15, size=2, burst=1)
        for clock in (Clock(bits=1), burst, burst._replace(address=0xFC4)):
            count, lowest = monitor.clock(clock)
            self.lines.append(f"address {clock.address}: flags {count}, lowest {lowest}: answer 0")

    def test_lines(self):
        self.engine, self.memory, self.lines = Engine(), bytearray(3 * 4096), []
        self.memory[256:352] = bytes(range(1, 97))
        self.simple()
        self.chain()
        self.window()
        self.clocks()
        with open(os.path.join(ROOT, "tests", "lines", "copy")) as file:
            self.assertEqual(self.lines, [line.split("#")[0].rstrip() for line in file])


if __name__ == "__main__":
    unittest.main()
