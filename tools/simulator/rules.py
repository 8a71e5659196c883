"""Constants, refusal numbers, release rules, boundaries and forecast ends."""

from __future__ import annotations

from dataclasses import dataclass
from enum import IntEnum
from typing import Callable

HORIZON = 1_000_000_000_000  # last instant; the clock never passes it
WHOLE = 1_000_000            # the whole processor, in millionths
LARGEST = 1_000_000          # largest load and largest period, in ticks
SERVERS = 64                 # servers are numbered 1..64
RECORDS = 1_024              # most records in a plan, the head included
LINES = 1_024                # most lines in a script


class Number(IntEnum):
    """Every refusal and fault number."""

    SERVER = 1             # server number outside 1..64
    CAP = 2                # cap outside 1..1,000,000
    LOAD = 3               # load outside 1..1,000,000
    PERIOD = 4             # period outside 1..1,000,000
    LIMIT = 5              # limit outside 1..period
    COUNT = 6              # advance count outside 1..horizon
    PLAN_LENGTH = 7        # plan length or record count is wrong
    RECORD_FORM = 8        # wrong kind, action number 0, or a zero part is not zero
    ACTION_FIRST = 9       # action record before any server
    TWICE = 11             # server number twice, or action number twice in one server
    SCRIPT_FORM = 12       # line breaks the script form, or line 1,025
    NOT_IN_PLAN = 13       # plan lacks the server or action of an A or S line
    QUEUE_INSTANT = 14     # queue instant above the horizon
    NOT_ADMITTED = 20      # server not admitted
    ADMITTED = 21          # server already admitted
    CAPS_FULL = 22         # caps held plus the new cap exceed 1,000,000
    AT_WORK = 23           # server has an action at work
    OVER_CAP = 24          # limit * 1,000,000 exceeds cap * period
    OVER_HORIZON = 25      # forecast end past the horizon
    CLOCK_AT_HORIZON = 26  # clock at the horizon
    IN_QUEUE = 27          # server already has an entry in the queue
    FEW_PLACES = 28        # too little memory lent
    MEMORY_FULL = 29       # memory full, or fewer places than script lines


class Refused(Exception):
    """A call was refused. It has changed nothing."""

    def __init__(self, number: Number):
        super().__init__(int(number))
        self.number = int(number)


@dataclass(frozen=True)
class Fault:
    """A fault in a plan (place = record) or in a script (place = line)."""

    layer: int
    number: int
    place: int

    def text(self) -> str:
        return f"fault {int(self.layer)} {int(self.number)} {int(self.place)}\n"


def plan_fault(number: int, place: int) -> Fault:
    """Layer 1 is the form of the plan (7 to 9), layer 2 its values."""
    layer = 1 if 7 <= number <= 9 else 2
    return Fault(layer, int(number), place)


def script_fault(line_number: int) -> Fault:
    return Fault(3, int(Number.SCRIPT_FORM), line_number)


# A release rule takes arrival, boundary, limit and period. It answers how many
# ticks the first stretch owes when the action arrives before the boundary.
ReleaseRule = Callable[[int, int, int, int], int]


def late_rule(arrival: int, boundary: int, limit: int, period: int) -> int:
    return 0


def early_rule(arrival: int, boundary: int, limit: int, period: int) -> int:
    if not 1 <= limit <= period <= LARGEST:
        return 0
    if not arrival <= boundary < arrival + period:
        return 0
    return limit * (boundary - arrival) // period


def first_boundary(arrival: int, period: int) -> int:
    """Least multiple of the period that is not below the arrival."""
    past = arrival % period
    if past == 0:
        return arrival
    return arrival - past + period


def first_amount(rule: ReleaseRule, arrival: int, limit: int, period: int) -> int:
    """The rule's answer, or 0 if the arrival is on a boundary."""
    boundary = first_boundary(arrival, period)
    if arrival == boundary:
        return 0
    return rule(arrival, boundary, limit, period)


def forecast_end(rule: ReleaseRule, arrival: int, load: int, limit: int, period: int) -> int:
    boundary = first_boundary(arrival, period)
    amount = first_amount(rule, arrival, limit, period)
    if load <= amount:
        return boundary
    full_periods, rest = divmod(load - amount, limit)
    if rest > 0:
        full_periods += 1
    return boundary + period * full_periods
