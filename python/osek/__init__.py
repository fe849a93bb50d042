"""The OSEK reference from Python: a trace of events run over a configuration, by libosek.so.

    run(config, trace)     the answers and the losses, or the exception Refused
    salvage(trace)         the readable events of a damaged trace, and where something was dropped
    oil(text)              the configuration that an OIL text describes, or the exception RefusedText
    wait(config, trace, body)   how many bodies end before this one begins, or the exception Refused
    misses(config, trace)  how many deadlines are missed, and the first of them, or the exception Refused
    draw(start, ..)        a drawn trace
    verdict(config, trace, recorded)   None for a unit that passes, or the first event whose answer differs or is missing
    osek_run(..)           the C calls themselves, for buffers of one's own
    osek_salvage(..), osek_oil(..), osek_draw(..), osek_wait(..), osek_misses(..), osek_verdict(..)
    Configuration, Event   configurations and events as values: to bytes and back (values.py)
    EventCode, Status, Refusal, Kind
                           the numbers with their names (codes.py)
    text                   the text form, by the bench tool (text.py)

All inputs are bytes, as docs/RULES.md has them. The library is the file that OSEK_LIBRARY names, or the one that `make lib`
left in the clone, or the one that is installed.
"""

import ctypes
import os
from pathlib import Path
from typing import Any, Iterable, List, NamedTuple, Optional, Sequence, Tuple, Union

from . import text
from ._version import version as __version__
from .codes import ARGUMENTS, EventCode, Kind, Refusal, Status
from .values import Body, Configuration, Entry, Event, Table, decode_numbers, decode_trace, encode_number, encode_trace

Data = Union[bytes, bytearray, memoryview]  # what is only read

OUTPUT_MAX = 32832  # suffices for every run
CONFIG_MAX = 4096  # suffices for every configuration
TRACE_MAX = 8192  # suffices for what is kept of every trace
STRETCHES_MAX = 12224  # suffices for every list of dropped stretches
MISSES_MAX = 64  # how many misses are listed
ANSWER_SIZE = 4
LOSS_SIZE = 2
MISS_SIZE = 3
IDLE = 255
PASS = 2**64 - 1  # the verdict on a unit that passes

REFUSALS = {
    1: "the configuration ends inside a number, or where one is missing",
    2: "a number of the configuration is too large or not in its shortest form",
    3: "the version is not 1, 2 or 3",
    4: "a count is outside its range",
    5: "a field is outside its range, an entry's task is an ISR, or a resource's user is time-triggered",
    6: "a priority is used already",
    7: "an entry does not come after the one before it",
    8: "an entry count takes the total over 64",
    9: "bytes are left over after the configuration",
    10: "the configuration is longer than 4,096 bytes",
    13: "a time-triggered task shares its offset with another entry of its table",
    14: "a table has time-triggered tasks beside others, or is the second that has some",
    20: "the trace is longer than 8,192 bytes",
    21: "the trace ends inside a number, or where one is missing",
    22: "a number of the trace is too large or not in its shortest form",
    23: "an event code is not 1 to 12",
    30: "the output is too short",
    31: "the body does not wait to begin",
    32: "a resource is held",
    34: "no body has this number",
    35: "the configuration has extended or time-triggered tasks",
    50: "the start value of a draw is 0",
    51: "all weights of a draw are 0, or a limit is",
    60: "a sign that no word has, or a comment that is not closed",
    61: "a word that may not stand there",
    62: "no object or attribute that may stand there",
    63: "an earlier object's name, or an attribute given twice",
    64: "no RESOURCE object bears this name",
    70: "the recorded answers are not a multiple of four bytes, or are more than there are events",
}


class Answer(NamedTuple):
    """What one event did."""

    status: int
    runner: Optional[int]  # the body that runs after it, None when idle
    level: int  # the runner's current priority, 201 of a time-triggered task, 0 when idle
    begun: bool  # the event made a body begin from its start


class Run(NamedTuple):
    """An accepted run."""

    answers: List[Answer]  # one for each event
    losses: List[int]  # one for each body: its lost activations; from version 2 on an ISR's lost lines, too


class Miss(NamedTuple):
    """A deadline that was missed."""

    tick: int  # the number of its Tick in the trace, from 1
    task: int


class Misses(NamedTuple):
    """The deadlines that a trace misses."""

    count: int  # of all
    first: List[Miss]  # the first 64, in order of time, then of body


class Salvaged(NamedTuple):
    """What was made of a damaged trace."""

    events: bytes  # a readable trace
    dropped: List[Tuple[int, int]]  # each dropped stretch: its offset in the damaged trace, and its length


class Refused(Exception):
    """A call that was refused: its code, the place in the input, and the code in words."""

    def __init__(self, code: int, place: int):
        self.code, self.place = code, place
        self.words = REFUSALS.get(code, "refused")
        super().__init__(f"refused {code} {place}: {self.words}")


class RefusedText(Exception):
    """An OIL text that was refused: its code, line and column (0 where no place is at fault), and the code in words."""

    def __init__(self, code: int, line: int, column: int):
        self.code, self.line, self.column = code, line, column
        self.words = REFUSALS.get(code, "refused")
        super().__init__(f"refused {code} at {line}:{column}: {self.words}")


def _library() -> ctypes.CDLL:
    built = Path(__file__).resolve().parents[2] / "build" / "libosek.so"
    named = os.environ.get("OSEK_LIBRARY") or (str(built) if built.exists() else "libosek.so.1")
    try:
        library = ctypes.CDLL(named)
    except OSError as error:
        raise ImportError(
            f"the library {named} can't be loaded ({error}): run `make lib` in the clone, or name it in OSEK_LIBRARY"
        ) from error
    # Without these a result would be cut to 32 bits, and every refusal lost.
    for function in (library.osek_run, library.osek_salvage, library.osek_verdict, library.osek_misses):
        function.restype = ctypes.c_uint64
        function.argtypes = 3 * [ctypes.c_void_p, ctypes.c_size_t]
    library.osek_oil.restype = ctypes.c_uint64
    library.osek_oil.argtypes = 2 * [ctypes.c_void_p, ctypes.c_size_t] + [ctypes.c_void_p]
    library.osek_wait.restype = ctypes.c_uint64
    library.osek_wait.argtypes = 2 * [ctypes.c_void_p, ctypes.c_size_t] + [ctypes.c_uint32]
    library.osek_draw.restype = ctypes.c_uint64
    library.osek_draw.argtypes = [ctypes.c_uint32, _Weights, _Limits, ctypes.c_uint32, ctypes.c_void_p, ctypes.c_size_t]
    return library


_Weights = ctypes.c_uint16 * 12  # in the order of the event codes
_Limits = ctypes.c_uint16 * 4  # of bodies, resources, tables and delays
_LIBRARY = _library()


def osek_run(config: Data, trace: Data, out: bytearray) -> int:
    """The C call: writes the output into the writable buffer `out`; refusal * 2**32 + place, or the number of events."""
    return int(_LIBRARY.osek_run(*_lent(config), *_lent(trace), *_taken(out)))


def osek_salvage(trace: Data, events: bytearray, stretches: bytearray) -> int:
    """The C call: writes into the writable buffers; refusal * 2**32 + place, or the list's length * 65,536 + the events'."""
    return int(_LIBRARY.osek_salvage(*_lent(trace), *_taken(events), *_taken(stretches)))


def osek_oil(text: Data, config: bytearray, place: "ctypes.Array[ctypes.c_uint64]") -> int:
    """The C call: writes the configuration, and line and column into an array of two `c_uint64`; refusal * 2**32, or the length."""
    return int(_LIBRARY.osek_oil(*_lent(text), *_taken(config), place))


def osek_wait(config: Data, trace: Data, body: int) -> int:
    """The C call: refusal * 2**32 + place, or the number of Finish events until the body begins."""
    return int(_LIBRARY.osek_wait(*_lent(config), *_lent(trace), body))


def osek_misses(config: Data, trace: Data, first: bytearray) -> int:
    """The C call: writes the first misses into the writable buffer; refusal * 2**32 + place, or the count of all."""
    return int(_LIBRARY.osek_misses(*_lent(config), *_lent(trace), *_taken(first)))


def osek_draw(start: int, weights: Sequence[int], limits: Sequence[int], count: int, out: bytearray) -> int:
    """The C call: writes the trace into the writable buffer `out`; refusal * 2**32 + place, or the length of the trace."""
    return int(_LIBRARY.osek_draw(start, _Weights(*weights), _Limits(*limits), count, *_taken(out)))


def osek_verdict(config: Data, trace: Data, recorded: Data) -> int:
    """The C call: PASS, the index of the first event that differs or is missing, or refusal * 2**32 + place."""
    return int(_LIBRARY.osek_verdict(*_lent(config), *_lent(trace), *_lent(recorded)))


def run(config: Data, trace: Data) -> Run:
    """Runs the trace from the configuration's fresh start."""
    out = bytearray(OUTPUT_MAX)
    low = _accepted(osek_run(config, trace, out))
    answers = [_answer(out[at : at + ANSWER_SIZE]) for at in range(0, ANSWER_SIZE * low, ANSWER_SIZE)]
    bodies = _bytes(config)[1]
    first = ANSWER_SIZE * low
    losses = [int.from_bytes(out[at : at + LOSS_SIZE], "little") for at in range(first, first + LOSS_SIZE * bodies, LOSS_SIZE)]
    return Run(answers, losses)


def salvage(trace: Data) -> Salvaged:
    """Reads the trace event by event; where none can be read a byte is dropped, and the next is tried."""
    events, stretches = bytearray(TRACE_MAX), bytearray(STRETCHES_MAX)
    listed, kept = divmod(_accepted(osek_salvage(trace, events, stretches)), 1 << 16)
    numbers = list(decode_numbers(stretches[:listed]))
    return Salvaged(bytes(events[:kept]), list(zip(numbers[::2], numbers[1::2])))


def oil(text: Data) -> bytes:
    """The configuration of the TASK, ISR and RESOURCE objects in an OIL text, which is bytes."""
    config, place = bytearray(CONFIG_MAX), (ctypes.c_uint64 * 2)()
    code, low = divmod(osek_oil(text, config, place), 1 << 32)
    if code != 0:
        raise RefusedText(code, place[0], place[1])
    return bytes(config[:low])


def wait(config: Data, trace: Data, body: int) -> int:
    """How many Finish events are accepted after the trace until the body with this number begins, if only such events follow."""
    if not 0 <= body < 1 << 32:
        raise ValueError("a body's number is 0 to 4,294,967,295")
    return _accepted(osek_wait(config, trace, body))


def misses(config: Data, trace: Data) -> Misses:
    """The deadlines that tasks miss, from the configuration's fresh start on."""
    out = bytearray(MISSES_MAX * MISS_SIZE)
    count = _accepted(osek_misses(config, trace, out))
    places = range(0, MISS_SIZE * min(count, MISSES_MAX), MISS_SIZE)
    return Misses(count, [Miss(int.from_bytes(out[at : at + 2], "little"), out[at + 2]) for at in places])


def draw(start: int, weights: Iterable[int], limits: Iterable[int], count: int) -> bytes:
    """A trace of `count` events, drawn from the 32-bit value `start` on.

    `weights` are twelve numbers of 16 bits in the order of the event codes, `limits` four: an argument is below that of
    bodies, resources, tables or delays.
    """
    twelve, four = _numbers_of(16, weights, 12, "weights"), _numbers_of(16, limits, 4, "limits")
    start, count = _numbers_of(32, (start, count), 2, "start and count")
    out = bytearray(TRACE_MAX)
    return bytes(out[: _accepted(osek_draw(start, twelve, four, count, out))])


def _numbers_of(bits: int, numbers: Iterable[int], many: int, name: str) -> Tuple[int, ...]:
    all_numbers = tuple(numbers)
    # ctypes would cut a larger number to its low bits.
    if len(all_numbers) != many or not all(0 <= number < 1 << bits for number in all_numbers):
        raise ValueError(f"{name}: {many} numbers of {bits} bits each")
    return all_numbers


def verdict(config: Data, trace: Data, recorded: Data) -> Optional[int]:
    """Judges four recorded bytes an event: None for pass, else the index of the first event that differs or is missing."""
    result = osek_verdict(config, trace, recorded)
    return None if result == PASS else _accepted(result)


def _lent(data: Data) -> Tuple[Any, int]:
    data = _bytes(data)
    return ctypes.create_string_buffer(data, len(data)), len(data)


def _taken(out: bytearray) -> Tuple[Any, int]:
    return (ctypes.c_uint8 * len(out)).from_buffer(out), len(out)


def _accepted(result: int) -> int:
    code, low = divmod(result, 1 << 32)
    if code:
        raise Refused(code, low)
    return low


def _answer(four: Data) -> Answer:
    status, runner, level, begun = four
    return Answer(status, None if runner == IDLE else runner, level, begun == 1)


def _bytes(data: Data) -> bytes:
    return memoryview(data).tobytes()  # a number or a text is a TypeError, not so many zeros
