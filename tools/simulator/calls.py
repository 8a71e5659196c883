"""Lists of board calls: their bytes, what a board answers to them, and the printed lines.

A call is 14 bytes: its kind (0 admit, 1 leave, 2 start, 3 tick, 4 advance), a server number
and three little-endian 4-byte fields: the cap of an admit; load, limit and period of a
start; the count of an advance, in the first two together. What a kind does not use is 0.
"""

from __future__ import annotations

from dataclasses import astuple, dataclass
from typing import Optional, Union

from board import Board
from rules import Refused, ReleaseRule
from sheet import set_sum

SIZE = 14


@dataclass(frozen=True)
class Admit:
    server: int
    cap: int


@dataclass(frozen=True)
class Leave:
    server: int


@dataclass(frozen=True)
class Start:
    server: int
    load: int
    limit: int
    period: int


@dataclass(frozen=True)
class Tick:
    pass


@dataclass(frozen=True)
class Advance:
    count: int


Call = Union[Admit, Leave, Start, Tick, Advance]


@dataclass(frozen=True)
class Reply:
    """What a call answered. What does not belong to it is as it stands here."""

    refusal: int = 0              # 0 if the call was accepted
    end: int = 0                  # of a start: the forecast end
    served: Optional[int] = None  # of a tick or an advance: the server served,
    ticks: int = 0                # the number of ticks,
    released: frozenset[int] = frozenset()  # and the sets of the last one
    ended: frozenset[int] = frozenset()
    late: frozenset[int] = frozenset()

    def is_quiet(self) -> bool:
        return not (self.released or self.ended or self.late)


Played = list[tuple[Call, Reply]]


# Bytes

def write_calls(calls: list[Call]) -> bytes:
    return b"".join(map(call_bytes, calls))


def call_bytes(call: Call) -> bytes:
    match call:
        case Admit(server, cap):
            return record(0, server, cap)
        case Leave(server):
            return record(1, server)
        case Start(server, load, limit, period):
            return record(2, server, load, limit, period)
        case Tick():
            return record(3)
        case Advance(count):
            return record(4, 0, count % 2**32, count // 2**32)


def record(kind: int, server: int = 0, *fields: int) -> bytes:
    data = bytes([kind, server]) + b"".join(value.to_bytes(4, "little") for value in fields)
    return data.ljust(SIZE, b"\0")


def read_calls(data: bytes) -> list[Call]:
    if len(data) % SIZE != 0:
        raise ValueError("the list ends inside a call")
    return [read_call(data[at:at + SIZE]) for at in range(0, len(data), SIZE)]


def read_call(data: bytes) -> Call:
    kind, server = data[0], data[1]
    first, second, third = (int.from_bytes(data[at:at + 4], "little") for at in (2, 6, 10))
    return [Admit(server, first), Leave(server), Start(server, first, second, third), Tick(),
            Advance(first + second * 2**32)][kind]


# Playing

def play(rule: ReleaseRule, calls: list[Call]) -> Played:
    board = Board(rule)
    return [(call, make_call(board, call)) for call in calls]


def make_call(board: Board, call: Call) -> Reply:
    try:
        match call:
            case Admit(server, cap):
                board.admit(server, cap)
                return Reply()
            case Leave(server):
                board.leave(server)
                return Reply()
            case Start(server, load, limit, period):
                return Reply(end=board.start(server, load, limit, period))
            case Tick():
                answer = board.tick()
            case Advance(count):
                answer = board.advance(count)
    except Refused as refused:
        return Reply(refusal=refused.number)
    return Reply(served=answer.served, ticks=answer.ticks, released=frozenset(answer.released),
                 ended=frozenset(answer.ended), late=frozenset(answer.late))


# Printed lines

def call_text(call: Call, reply: Reply) -> str:
    """What was asked and what was answered."""
    parts = [type(call).__name__.lower(), *astuple(call), reply.refusal]
    match call:
        case Start():
            parts.append(reply.end)
        case Tick():
            parts.append(reply.served or 0)
        case Advance():
            parts += [reply.served or 0, reply.ticks]
    if isinstance(call, (Tick, Advance)):
        parts += [set_sum(reply.released), set_sum(reply.ended), set_sum(reply.late)]
    return " ".join(str(part) for part in parts) + "\n"
