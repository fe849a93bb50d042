"""Configurations and traces as values: to bytes and back.

Writing checks no range but that of a number: what is written may be refused, and the library says so. Reading takes
what the library accepts.
"""

from dataclasses import dataclass, field
from typing import Iterable, Iterator, List, NamedTuple, Sequence, Tuple

from .codes import ARGUMENTS, EventCode, Kind

NUMBER_MAX = 4_294_967_295
DEADLINES_VERSION = 3  # whose bodies have deadlines


class Event(NamedTuple):
    """An event with its arguments: Event(EventCode.START, (0, 3))."""

    code: EventCode
    arguments: Tuple[int, ...] = ()

    def __str__(self) -> str:
        return " ".join([self.code.name.capitalize(), *map(str, self.arguments)])


@dataclass(frozen=True)
class Body:
    """A task or an ISR; a greater priority wins."""

    kind: int  # a Kind
    priority: int
    autostart: int = 0
    deadline: int = 0  # in ticks, of a task; 0 for none


class Entry(NamedTuple):
    """An expiry point of a table."""

    offset: int
    task: int


@dataclass(frozen=True)
class Table:
    """A schedule table."""

    period: int
    entries: Sequence[Entry]


@dataclass(frozen=True)
class Configuration:
    """Bodies, resources and tables are numbered as they stand. A resource is the numbers of its users."""

    bodies: Sequence[Body]
    resources: Sequence[Iterable[int]] = field(default_factory=tuple)
    tables: Sequence[Table] = field(default_factory=tuple)
    version: int = 1

    def encode(self) -> bytes:
        """The configuration's bytes, accepted or not; a deadline is for version 3."""
        has_deadlines = self.version == DEADLINES_VERSION
        if not has_deadlines and any(body.deadline for body in self.bodies):
            raise ValueError(f"version {self.version} has no deadlines")
        numbers = [self.version, len(self.bodies)]
        for body in self.bodies:
            numbers += [body.kind, body.priority, int(body.autostart)]
            numbers += [body.deadline] if has_deadlines else []
        numbers.append(len(self.resources))
        numbers += [sum(1 << user for user in set(users)) for users in self.resources]
        numbers.append(len(self.tables))
        for table in self.tables:
            numbers += [table.period, len(table.entries)]
            for offset, task in table.entries:
                numbers += [offset, task]
        return b"".join(map(encode_number, numbers))

    @classmethod
    def decode(cls, data: bytes) -> "Configuration":
        """The configuration that the library accepts in these bytes; otherwise the exception Refused."""
        from . import run

        run(data, b"")
        numbers = decode_numbers(data)
        version = next(numbers)
        fields = 4 if version == DEADLINES_VERSION else 3
        rows = [[next(numbers) for _ in range(fields)] for _ in range(next(numbers))]
        bodies = [Body(Kind(kind), *others) for kind, *others in rows]
        masks = [next(numbers) for _ in range(next(numbers))]
        resources = [frozenset(bit for bit in range(32) if mask >> bit & 1) for mask in masks]
        tables = []
        for _ in range(next(numbers)):
            period, count = next(numbers), next(numbers)
            tables.append(Table(period, tuple(Entry(next(numbers), next(numbers)) for _ in range(count))))
        return cls(tuple(bodies), tuple(resources), tuple(tables), version)


def encode_number(value: int) -> bytes:
    """A number in its shortest form: seven bits a byte, the lowest first."""
    if not 0 <= value <= NUMBER_MAX:
        raise ValueError(f"a number is 0 to {NUMBER_MAX:,}, not {value}")
    data = bytearray()
    while value > 127:
        data.append(value & 127 | 128)
        value >>= 7
    data.append(value)
    return bytes(data)


def decode_numbers(data: bytes) -> Iterator[int]:
    """The numbers in these bytes, which can all be read."""
    value, shift = 0, 0
    for byte in bytes(data):
        value, shift = value | (byte & 127) << shift, shift + 7
        if byte < 128:
            yield value
            value, shift = 0, 0


def encode_trace(events: Iterable[Event]) -> bytes:
    """The bytes of a trace; an event has exactly the arguments that ARGUMENTS lists."""
    data = bytearray()
    for code, arguments in events:
        expected = ARGUMENTS[EventCode(code)]
        if len(arguments) != len(expected):
            raise ValueError(f"{EventCode(code).name} has the arguments {expected}, not {arguments}")
        for number in (code, *arguments):
            data += encode_number(number)
    return bytes(data)


def decode_trace(data: bytes) -> List[Event]:
    """The events that the library reads in these bytes; otherwise the exception Refused."""
    from . import run

    run(bytes([1, 1, 0, 1, 1, 0, 0]), data)
    numbers = decode_numbers(data)
    events = []
    for number in numbers:
        code = EventCode(number)
        events.append(Event(code, tuple(next(numbers) for _ in ARGUMENTS[code])))
    return events
