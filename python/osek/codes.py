"""The numbers of include/osek.h with their names: events, statuses, refusals, kinds of bodies."""

from enum import IntEnum
from typing import Dict, Tuple


class EventCode(IntEnum):
    """The events of a trace."""

    ACTIVATE = 1
    FINISH = 2
    CHAIN = 3
    GET = 4
    RELEASE = 5
    TICK = 6
    LINE = 7
    START = 8
    STOP = 9
    WAIT = 10
    SET = 11
    CLEAR = 12


# The arguments of each event.
ARGUMENTS: Dict[EventCode, Tuple[str, ...]] = {
    EventCode.ACTIVATE: ("task",),
    EventCode.FINISH: (),
    EventCode.CHAIN: ("task",),
    EventCode.GET: ("resource",),
    EventCode.RELEASE: ("resource",),
    EventCode.TICK: (),
    EventCode.LINE: ("isr",),
    EventCode.START: ("table", "delay"),
    EventCode.STOP: ("table",),
    EventCode.WAIT: ("mask",),
    EventCode.SET: ("task", "mask"),
    EventCode.CLEAR: ("mask",),
}


class Status(IntEnum):
    """The answers to an event, by OSEK's names; the last one is the reference's own."""

    E_OK = 0
    E_OS_ACCESS = 1
    E_OS_CALLEVEL = 2
    E_OS_ID = 3
    E_OS_LIMIT = 4
    E_OS_NOFUNC = 5
    E_OS_RESOURCE = 6
    E_OS_STATE = 7
    E_OS_VALUE = 8
    E_USER = 33


class Refusal(IntEnum):
    """Why a call is refused, by the header's names."""

    CONFIG_CUT = 1
    CONFIG_NUMBER = 2
    CONFIG_VERSION = 3
    CONFIG_COUNT = 4
    CONFIG_FIELD = 5
    CONFIG_PRIORITY_USED = 6
    CONFIG_ENTRY_ORDER = 7
    CONFIG_ENTRY_TOTAL = 8
    CONFIG_LEFT_OVER = 9
    CONFIG_TOO_LONG = 10
    CONFIG_OFFSET_USED = 13
    CONFIG_TABLE_MIXED = 14
    TRACE_TOO_LONG = 20
    TRACE_CUT = 21
    TRACE_NUMBER = 22
    TRACE_EVENT = 23
    OUTPUT_TOO_SHORT = 30
    WAIT_NOT_WAITING = 31
    WAIT_RESOURCE = 32
    WAIT_BODY = 34
    WAIT_KIND = 35
    DRAW_START = 50
    DRAW_NOTHING = 51
    OIL_UNREADABLE = 60
    OIL_UNEXPECTED = 61
    OIL_UNKNOWN = 62
    OIL_TWICE = 63
    OIL_NO_RESOURCE = 64
    RECORD_LENGTH = 70


class Kind(IntEnum):
    """The kinds of bodies."""

    TASK = 0
    ISR = 1
    EXTENDED = 2
    TIME_TRIGGERED = 3
