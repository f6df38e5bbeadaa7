"""Belikumba from Python: the AXI Central DMA engine and a monitor of its read-address bus, as proved software.

Needs Python 3.8 and the shared library, which `./belikumba lib` proves and builds. The rules are in docs/RULES.md, and the
functions behind this module in include/belikumba.h.

    import belikumba
    from belikumba import Register, Status

    memory = bytearray(8192)
    memory[256:272] = b"sixteen letters."
    engine = belikumba.Engine(width=4, beats=16)
    engine.write(Register.SA, 256)
    engine.write(Register.DA, 4088)
    engine.write(Register.BTT, 16)           # starts
    engine.run(memory)                       # 2 steps: a page ends at 4096
    engine.read(Register.CDMASR) & Status.IOC_IRQ
    memory[4088:4104]

Two engines on one memory are two objects, and each step or run is given that memory, one call at a time (RULES.md 11).

A call that is refused raises Refused, which carries the answer, and changes nothing. The library is looked for in the
environment's BELIKUMBA_LIBRARY, in target/host beside this folder, and where the system looks for libraries.
"""

import ctypes
import enum
import os
from typing import NamedTuple, Optional

__all__ = [
    "Answer", "Clock", "Control", "Descriptor", "Engine", "Event", "Judged", "Monitor", "Refused", "Register", "Status",
    "Step", "Verdict", "count", "judge", "plan",
]


class Answer(enum.IntEnum):
    """Why a call is refused; RULES.md 2.1."""

    DONE = 0
    SETTINGS = 1
    MEMORY_SIZE = 2
    OFFSET = 3
    BUSY = 4
    ERROR_SET = 5
    WINDOW_COUNT = 6
    PLAN_RANGE = 7
    PLAN_ROOM = 8
    STATE = 9
    CLOCK = 13


_MEANINGS = {
    Answer.SETTINGS: "width is not 4, 8, 16, 32, 64 or 128, or beats are not 2, 4, 8, 16, 32, 64, 128 or 256",
    Answer.MEMORY_SIZE: "the memory is longer than 16,777,216 bytes",
    Answer.OFFSET: "there is no register at this offset",
    Answer.BUSY: "write ignored: the engine is busy, or in the wrong mode",
    Answer.ERROR_SET: "write ignored: an error bit is set",
    Answer.WINDOW_COUNT: "there are more than 16 windows",
    Answer.PLAN_RANGE: "count is 0 or above 8,388,607, or start + count is above 2^32",
    Answer.PLAN_ROOM: "the plan needs more places than there are",
    Answer.STATE: "the words are not those of a well-formed engine, or of no monitor",
    Answer.CLOCK: "a field of the bus clock is out of range",
}


class Refused(Exception):
    """A call that was refused and changed nothing; `answer` says why."""

    def __init__(self, answer):
        self.answer = Answer(answer)
        super().__init__(f"answer {self.answer.value}: {_MEANINGS[self.answer]}")


class Register(enum.IntEnum):
    """Offsets of the registers; RULES.md 5.1."""

    CDMACR = 0x00
    CDMASR = 0x04
    CURDESC = 0x08
    TAILDESC = 0x10
    SA = 0x18
    DA = 0x20
    BTT = 0x28


class Control(enum.IntFlag):
    """Bits of CDMACR; RULES.md 5.2."""

    RESET = 1 << 2
    SGMODE = 1 << 3
    KEY_HOLE_READ = 1 << 4
    KEY_HOLE_WRITE = 1 << 5
    IOC_IRQEN = 1 << 12
    ERR_IRQEN = 1 << 14


class Status(enum.IntFlag):
    """Bits of CDMASR; RULES.md 5.3."""

    IDLE = 1 << 1
    SGINCLD = 1 << 3
    DMAINTERR = 1 << 4
    DMASLVERR = 1 << 5
    DMADECERR = 1 << 6
    SGINTERR = 1 << 8
    SGSLVERR = 1 << 9
    SGDECERR = 1 << 10
    IOC_IRQ = 1 << 12
    ERR_IRQ = 1 << 14
    ERRORS = 0x770


class Event(enum.IntEnum):
    """What a step did; RULES.md 6.7."""

    NONE = 0
    FETCH = 1
    MOVE = 2
    FAULT = 3
    UPDATE = 4
    HALT = 5


class Step(NamedTuple):
    """A step's event and its two numbers; of a FAULT the address of the byte that failed and the CDMASR bit's number."""

    event: Event
    first: int
    second: int


class Verdict(enum.IntEnum):
    """What a group of bytes answers; RULES.md 4.1."""

    OKAY = 0
    SLAVE_ERROR = 1
    DECODE_ERROR = 2


class Judged(NamedTuple):
    """What a group of bytes answers, and where; RULES.md 4.2. OKAY has no place, and only a slave error has a window."""

    verdict: Verdict
    place: Optional[int]
    window: Optional[int]


class Descriptor(NamedTuple):
    """A descriptor's fields; RULES.md 6.1."""

    next: int = 0
    source: int = 0
    destination: int = 0
    control: int = 0
    status: int = 0

    @classmethod
    def load(cls, memory, at):
        """The descriptor at an address of the memory."""
        return cls(*(int.from_bytes(memory[at + place:at + place + 4], "little") for place in (0x00, 0x08, 0x10, 0x18, 0x1C)))

    def store(self, memory, at):
        """Writes the descriptor's 32 bytes to an address of the memory."""
        words = (self.next, 0, self.source, 0, self.destination, 0, self.control, self.status)
        memory[at:at + 32] = b"".join(word.to_bytes(4, "little") for word in words)


# ---- The library

_WORD = ctypes.c_uint32


def _structure(name, *fields):
    return type(name, (ctypes.Structure,), {"_fields_": [(field, _WORD) for field in fields]})


_Planned = _structure("_Planned", "answer", "bursts")
_Value = _structure("_Value", "answer", "value")
_Stepped = _structure("_Stepped", "answer", "event", "first", "second")
_Judged = _structure("_Judged", "answer", "verdict", "place", "window")
_Ran = _structure("_Ran", "answer", "steps")
_CLOCK_FIELDS = ("bits", "address", "length", "size", "burst", "cache", "prot", "qos", "region", "id")
_Clock = _structure("_Clock", *_CLOCK_FIELDS)
_Clocked = _structure("_Clocked", "answer", "count", "lowest")

# As BELIKUMBA_INTERFACE of include/belikumba.h, which says when it rises: keep it beside words that are stored.
INTERFACE = 2

_ENGINE_WORDS = 22
_MONITOR_WORDS = 14


def _load():
    beside = os.path.join(os.path.dirname(os.path.abspath(__file__)), "..", "target", "host", f"libbelikumba.so.{INTERFACE}")
    path = os.environ.get("BELIKUMBA_LIBRARY") or (beside if os.path.exists(beside) else os.path.basename(beside))
    try:
        library = ctypes.CDLL(path)
    except OSError as error:
        raise ImportError(f"{error}: build the library with `./belikumba lib`, or name it in BELIKUMBA_LIBRARY") from None
    words, memory, size = ctypes.POINTER(_WORD), ctypes.c_void_p, ctypes.c_size_t
    for name, result, arguments in (
        ("plan", _Planned, (_WORD, _WORD, _WORD, _WORD, memory, size)),
        ("count", _Planned, (_WORD, _WORD, _WORD, _WORD)),
        ("judge", _Judged, (size, words, size, _WORD, _WORD)),
        ("read", _Value, (words, _WORD)),
        ("write", _WORD, (words, _WORD, _WORD)),
        ("interrupt_line", _Value, (words,)),
        ("step", _Stepped, (words, memory, size, words, size)),
        ("run", _Ran, (words, memory, size, words, size, ctypes.c_uint16)),
        ("bus_clock", _Clocked, (words, _WORD, _WORD, _Clock)),
    ):
        function = getattr(library, "belikumba_" + name)
        function.restype = result
        function.argtypes = arguments
    return library


_library = _load()


def _number(value, most=0xFFFFFFFF):
    """ctypes drops the upper bits of a number without a word; here it is an error."""
    value = int(value)
    if not 0 <= value <= most:
        raise OverflowError(f"{value} is not a number from 0 to {most}")
    return value


def _judged(result):
    if result.answer != Answer.DONE:
        raise Refused(result.answer)
    return result


def _lent(memory):
    """A bytearray, or any writable buffer of bytes, lent in place."""
    length = memoryview(memory).nbytes
    return ((ctypes.c_uint8 * length).from_buffer(memory) if length else None), length


def _counted(transfer):
    return _judged(_library.belikumba_count(*transfer)).bursts


def _windows(windows):
    numbers = [_number(number) for start, length in windows for number in (start, length)]
    return ((_WORD * len(numbers))(*numbers) if numbers else None), len(numbers)


# ---- What a user calls


def plan(width, beats, start, count, places=None):
    """The bursts of a transfer whose destination increments, as a list of (start, bytes); RULES.md 3.

    `places` is the room for the plan, two places a burst; as much as is needed if it is not given.
    """
    transfer = [_number(number) for number in (width, beats, start, count)]
    room = 2 * _counted(transfer) if places is None else _number(places)
    buffer = (ctypes.c_uint8 * (4 * room))()
    planned = _judged(_library.belikumba_plan(*transfer, buffer, 4 * room))
    numbers = [int.from_bytes(buffer[at:at + 4], "little") for at in range(0, 8 * planned.bursts, 4)]
    return list(zip(numbers[::2], numbers[1::2]))


def count(width, beats, start, count):
    """The number of bursts of a transfer whose destination increments, without its plan; RULES.md 3.4."""
    return _counted([_number(number) for number in (width, beats, start, count)])


def judge(memory, windows, start, bytes):
    """What the `bytes` bytes from address `start` on answer, and where; RULES.md 4.

    `memory` is the memory or its number of bytes: what is in it is not looked at. `windows` are (start, length), as for a
    step, and are numbered from 0 in their order. Where a step failed:

    - a FAULT's first number is the place; judge the 1 byte there for its window;
    - after a HALT at a fetch, judge the 32 bytes at CURDESC; at an update, the 4 bytes at CURDESC + 28. If its second
      number is 8, the descriptor was complete already, and no byte failed.
    """
    length = memory if isinstance(memory, int) else memoryview(memory).nbytes
    length = _number(length, ctypes.c_size_t(-1).value)
    judged = _judged(_library.belikumba_judge(length, *_windows(windows), _number(start), _number(bytes)))
    verdict = Verdict(judged.verdict)
    return Judged(
        verdict,
        None if verdict == Verdict.OKAY else judged.place,
        judged.window if verdict == Verdict.SLAVE_ERROR else None,
    )


class Engine:
    """An engine; RULES.md 5 and 6. `words` are its 22 numbers, as include/belikumba.h has them."""

    def __init__(self, width=4, beats=16, words=None):
        given = [width, beats] + [0] * (_ENGINE_WORDS - 2) if words is None else list(words)
        if len(given) != _ENGINE_WORDS:
            raise ValueError(f"an engine has {_ENGINE_WORDS} words, not {len(given)}")
        self._words = (_WORD * _ENGINE_WORDS)(*(_number(word) for word in given))

    @property
    def words(self):
        return tuple(self._words)

    def read(self, offset):
        """The value of the register at this offset."""
        return _judged(_library.belikumba_read(self._words, _number(offset))).value

    def write(self, offset, value):
        """Writes the register at this offset."""
        answer = _library.belikumba_write(self._words, _number(offset), _number(value))
        if answer != Answer.DONE:
            raise Refused(answer)

    @property
    def interrupt_line(self):
        """True if the interrupt line is high."""
        return bool(_judged(_library.belikumba_interrupt_line(self._words)).value)

    def step(self, memory, windows=()):
        """One step over the memory, a bytearray, with sick windows as (start, length)."""
        stepped = _judged(_library.belikumba_step(self._words, *_lent(memory), *_windows(windows)))
        return Step(Event(stepped.event), stepped.first, stepped.second)

    def run(self, memory, windows=(), most=0xFFFF):
        """Steps until idle or until `most` steps are taken; how many were.

        Runs one after the other over the same memory and windows, with nothing in between that changes engine or memory,
        are one run of their sum: RULES.md 6.8.
        """
        return _judged(_library.belikumba_run(self._words, *_lent(memory), *_windows(windows), _number(most, 0xFFFF))).steps


class Clock(NamedTuple):
    """One clock of the read-address bus; RULES.md 7.1. Bits: 1 out of reset, 2 valid, 4 ready."""

    bits: int = 0
    address: int = 0
    length: int = 0
    size: int = 0
    burst: int = 0
    cache: int = 0
    prot: int = 0
    qos: int = 0
    region: int = 0
    id: int = 0


class Monitor:
    """A monitor of the read-address bus; RULES.md 7."""

    def __init__(self, width=4, beats=16, words=None):
        given = [0] * _MONITOR_WORDS if words is None else list(words)
        if len(given) != _MONITOR_WORDS:
            raise ValueError(f"a monitor has {_MONITOR_WORDS} words, not {len(given)}")
        self.width, self.beats = _number(width), _number(beats)
        self._words = (_WORD * _MONITOR_WORDS)(*(_number(word) for word in given))

    @property
    def words(self):
        return tuple(self._words)

    def clock(self, clock):
        """One bus clock: how many flags are up, and the lowest of them, 0 if there is none."""
        fields = _Clock(*(_number(field) for field in clock))
        clocked = _judged(_library.belikumba_bus_clock(self._words, self.width, self.beats, fields))
        return clocked.count, clocked.lowest

    @staticmethod
    def _numbers(low, high):
        return [number for number in range(64) if (low | high << 32) >> number & 1]

    @property
    def flags(self):
        """The numbers of the flags that are up."""
        return self._numbers(self._words[0], self._words[1])

    @property
    def snapshot(self):
        """The flags after the clock that took them from none to some."""
        return self._numbers(self._words[2], self._words[3])
