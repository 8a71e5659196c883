"""Lists of board calls for tests: planted ones and random ones."""

from __future__ import annotations

from dataclasses import dataclass
from random import Random

from board import Board
from calls import Admit, Advance, Call, Leave, Start, Tick, make_call
from rules import HORIZON, LARGEST, SERVERS, WHOLE, early_rule, late_rule
from sheet_cases import shared_caps

MAX_FIELD = 2**32 - 1
MAX_COUNT = 2**64 - 1


def call_cases(rng: Random, count: int) -> list[list[Call]]:
    """The planted lists, then random ones up to the count."""
    lists = [*planted_ticks().values(), *planted_advances().values()]
    while len(lists) < count:
        lists.append(random_list(rng, random_shape(rng)))
    return lists[:count]


# Planted lists

def ticks(count: int) -> list[Call]:
    return [Tick()] * count


def admits(servers: int) -> list[Call]:
    """That many servers, which share the processor out."""
    return [Admit(server, WHOLE // servers) for server in range(1, servers + 1)]


HALVES = admits(2)


def planted_ticks() -> dict[str, list[Call]]:
    return {
        "worked example": HALVES + [
            Start(1, 3, 2, 4), Tick(), Start(2, 1, 1, 2), *ticks(7), Leave(2)],
        "order of refusals": HALVES + [
            Start(2, 9, 1, 2), Admit(0, 0), Admit(65, 1), Admit(255, MAX_FIELD), Admit(1, 0),
            Admit(1, WHOLE + 1), Admit(3, 0), Admit(3, MAX_FIELD), Admit(1, WHOLE),
            Admit(2, 1), Admit(3, 1), Admit(64, WHOLE), Leave(0), Leave(65), Leave(255),
            Leave(3), Leave(64), Leave(2), Start(0, 0, 0, 0), Start(65, 1, 1, 1),
            Start(255, 0, 1, 1), Start(3, 0, 0, 0), Start(3, LARGEST + 1, 0, 0),
            Start(3, MAX_FIELD, 1, 1), Start(3, 1, 0, 0), Start(3, 1, 0, LARGEST + 1),
            Start(3, 1, 1, MAX_FIELD), Start(3, 1, 0, 1), Start(3, 1, 2, 1),
            Start(2, 1, MAX_FIELD, LARGEST), Start(3, 1, 1, 1), Start(2, 9, 1, 1),
            Start(1, 9, 1, 1), Start(1, 9, 9, 10), Tick(), Start(1, LARGEST, 1, LARGEST),
            Start(1, LARGEST, LARGEST, LARGEST), Start(1, 1, 1, 2), *ticks(3), Leave(1)],
        "caps": [
            Admit(1, 250_000), Start(1, 1, 1, 3), Start(1, 1, 1, 4), Admit(2, 500_000),
            Admit(3, 250_001), Admit(3, 250_000), Admit(4, 1), Leave(2), Admit(4, 500_001),
            Admit(4, 1), Admit(2, 500_000), Admit(2, 499_999), Start(2, 7, 249_999, 500_000),
            Start(2, 7, 250_000, 500_000), *ticks(5), Leave(2), Leave(1), Leave(4)],
        "an end lies at the end of a stretch": HALVES + [
            Start(1, 1, 2, 4), Start(2, 2, 2, 4), Tick(), Leave(1), Start(1, 1, 1, 2), Tick(),
            Leave(1), Tick(), Leave(1), Leave(2), Tick(), Start(1, 1, 2, 4), Leave(2),
            *ticks(4), Start(1, 2, 1, 2), *ticks(4), Leave(1)],
        "the rules differ": HALVES + [
            *ticks(10), Start(1, 5, 2, 4), *ticks(3), Start(2, 1, 2, 4), *ticks(3),
            Start(2, 4, 2, 5), *ticks(12)],
        "the whole processor": [
            Admit(64, WHOLE), Start(64, 3, 1, 1), *ticks(3), Start(64, 7, 5, 5), *ticks(12),
            Start(64, 3, 9, 9), *ticks(3), Leave(64), Admit(1, 1), Start(1, 1, 1, LARGEST),
            Start(1, 2, 1, LARGEST - 1), *ticks(2), Leave(64), Leave(1)],
        "equal ends": admits(3) + [
            Start(3, 5, 3, 10), Start(1, 3, 3, 10), Start(2, 4, 3, 10), *ticks(10),
            Start(1, 1, 1, 4), *ticks(10)],
        "64 servers": admits(64) + [
            Start(server, 1, 1, 64) for server in range(64, 0, -1)] + ticks(65) + [
            Start(server, 1, 1, 64) for server in (1, 64, 32)] + ticks(1),
        "16 servers after a boundary": admits(16) + [Tick()] + [
            Start(server, 1 + server % 3, 2, 32) for server in range(1, 17)] + ticks(64),
    }


def planted_advances() -> dict[str, list[Call]]:
    at_the_horizon = [
        Tick(), Advance(1), Advance(HORIZON), Advance(0), Advance(HORIZON + 1), Admit(3, 1),
        Start(2, 1, 1, 2), Start(2, 1, 2, 2), Leave(2), Leave(2), Admit(3, 1), Tick()]
    return {
        "worked example, advances": HALVES + [
            Start(1, 3, 2, 4), Advance(1), Start(2, 1, 1, 2), *[Advance(7)] * 5, Leave(2)],
        "counts": [
            Advance(0), Advance(HORIZON + 1), Advance(2**32), Advance(2**63),
            Advance(MAX_COUNT), Advance(1), *HALVES, Start(1, 3, 2, 6), Advance(HORIZON),
            Advance(4), Advance(1), Advance(HORIZON), Advance(2), Advance(HORIZON - 1),
            Advance(HORIZON), *at_the_horizon],
        "to the horizon at once": HALVES + [Advance(HORIZON), *at_the_horizon],
        "the last periods": admits(4) + [
            Advance(HORIZON - 4), Start(1, 1, 1, 8), Start(1, 2, 1, 4), Start(1, 1, 1, 4),
            Advance(HORIZON), Start(2, 1, 1, 4), Tick(), Start(2, 1, 1, 1), Advance(HORIZON),
            Leave(1), *at_the_horizon],
        "cut by starts": admits(4) + [
            Start(1, 40, 10, 40), Advance(4), Start(2, 2, 1, 4), Advance(30), Advance(30),
            Start(3, 3, 2, 8), *[Advance(30)] * 12, Leave(2), *[Advance(30)] * 12],
        "large amounts": [
            Admit(1, 600_000), Admit(2, 400_000), Start(1, 30_000, 6_000, 10_000),
            Advance(5_999), Start(2, 10_000, 4_000, 10_000), *[Advance(9_000)] * 20],
        "64 servers after a boundary": admits(64) + [Advance(1)] + [
            Start(server, 1 + server % 3, 2, 128) for server in range(1, 65)] + [
            Advance(HORIZON)] * 140,
    }


# Random lists

@dataclass(frozen=True)
class Shape:
    """What a random list looks like."""

    servers: int       # how many share the processor
    most_calls: int
    longest_wait: int
    stretch: int       # periods are up to about this many times the least that fits
    any_calls: int     # one call out of so many has arguments at random
    begin: int         # the instant of the first calls
    advances: bool     # waits by advances mostly, or by single ticks only
    crowded: bool = False  # all servers start at once


def random_shape(rng: Random) -> Shape:
    """Half of the lists are sensible; the others have many calls with arguments at random, or
    come to the horizon, or are crowded."""
    kind = rng.randrange(10)
    advances = kind in (7, 8) or rng.randrange(4) > 0
    if kind == 9:
        servers = rng.randint(12, SERVERS)
        return Shape(servers, 2 * servers + rng.randint(60, 100), 30, 1, 12,
                     rng.choice([0, rng.randint(1, 9)]), advances, crowded=True)
    any_calls, begin = 12, rng.choice([0, rng.randint(1, HORIZON // 2)])
    if kind in (5, 6):
        any_calls, begin = 2, 0
    if kind in (7, 8):
        any_calls, begin = 6, HORIZON - rng.choice([1, rng.randint(2, 40), rng.randint(40, 400)])
    servers = rng.choice([1, 2, 2, 3, 3, 4, 5, 6, 8])
    stretch = rng.choice([1, 2, 5, 50] if advances else [1, 2])
    longest_wait = rng.choice([3, 10, 10 * servers * stretch] if advances else [3, 5])
    return Shape(servers, rng.randint(40, 100), longest_wait, stretch, any_calls,
                 begin if advances else 0, advances)


class Story:
    """Writes a list while a board runs along, so that calls come at fitting moments."""

    def __init__(self, rng: Random, shape: Shape):
        self.rng = rng
        self.shape = shape
        self.board = Board(rng.choice([late_rule, early_rule]))
        self.calls: list[Call] = []
        self.calls_at_horizon = 0
        caps = shared_caps(rng, shape.servers)
        self.caps = dict(zip(rng.sample(range(1, SERVERS + 1), len(caps)), caps))

    def has_room(self) -> bool:
        return len(self.calls) < self.shape.most_calls and self.calls_at_horizon < 12

    def call(self, call: Call) -> None:
        self.calls.append(call)
        self.calls_at_horizon += self.board.clock == HORIZON
        make_call(self.board, call)

    def wait(self, ticks: int) -> None:
        """That many ticks, unless the list is long enough before. At the horizon, one call."""
        instant = min(HORIZON, self.board.clock + ticks)
        while True:
            left = max(1, instant - self.board.clock)
            if not self.shape.advances or left < 10 and self.rng.randrange(6) == 0:
                self.call(Tick())
            else:
                self.call(Advance(self.rng.choice([left, left, left, self.rng.randint(1, left)])))
            if self.board.clock >= instant or not self.has_room():
                return

    def wait_a_while(self) -> None:
        """Up to the end of the next stretch, or some ticks."""
        calendar = self.board.calendar()
        if calendar and self.rng.randrange(2) == 0:
            self.wait(calendar[0][0] - self.board.clock)
        else:
            self.wait(self.rng.randint(1, self.shape.longest_wait))

    def fitting_call(self) -> bool:
        """Makes a call that is likely to be accepted, if there is one."""
        servers = self.board.servers
        room = WHOLE - self.board.caps_held()
        absent = [number for number, cap in self.caps.items()
                  if number not in servers and cap <= room]
        resting = [number for number in servers if servers[number].work is None]
        if absent and (not resting or self.rng.randrange(3) == 0):
            number = self.rng.choice(absent)
            self.call(Admit(number, self.caps[number]))
        elif resting and self.rng.randrange(12) == 0:
            self.call(Leave(self.rng.choice(resting)))
        elif resting:
            self.fitting_start(self.rng.choice(resting))
        else:
            return False
        return True

    def fitting_start(self, number: int) -> None:
        """An action that mostly takes all its cap allows, seldom more, on a boundary or off it."""
        rng, clock, cap = self.rng, self.board.clock, self.board.servers[number].cap
        least = -(-WHOLE // cap)  # the least period that takes a limit of 1
        periods = range(least, min(LARGEST, least * self.shape.stretch + 3) + 1)
        if rng.randrange(2) == 0:
            periods = [period for period in periods if clock % period == 0] or periods
        period = rng.choice(periods)
        fits = cap * period // WHOLE
        limit = rng.choice([fits, fits, rng.randint(1, fits)])
        if rng.randrange(20) == 0 and fits < period:
            limit = fits + 1
        load = rng.choice([limit, limit + 1, 2 * limit, rng.randint(1, 3 * limit)])
        self.call(Start(number, min(load, LARGEST), limit, period))

    def any_call(self) -> None:
        """A call with arguments at random, most likely refused."""
        rng = self.rng
        server = rng.choice([0, 65, 128, 255, rng.randint(1, SERVERS), *self.caps, *self.caps])
        amounts = [rng.choice([0, 1, 2, rng.randint(1, 20), LARGEST, LARGEST + 1, MAX_FIELD])
                   for _ in range(3)]
        small = [rng.randint(1, 9) for _ in range(3)]
        calls = [Admit(server, amounts[0]), Leave(server), Start(server, *amounts),
                 Start(server, *small)]
        if self.shape.advances:
            high_part_only = 2**32 * rng.randint(233, 2**32 - 1)  # past the horizon
            calls.append(Advance(rng.choice([0, 1, HORIZON + 1, high_part_only, MAX_COUNT])))
        self.call(rng.choice(calls))


def random_list(rng: Random, shape: Shape) -> list[Call]:
    story = Story(rng, shape)
    if shape.begin > 0:
        story.wait(shape.begin)
    for number, cap in story.caps.items():
        story.call(Admit(number, cap))
    if shape.crowded:
        for number in story.caps:
            story.fitting_start(number)
    while story.has_room():
        if rng.randrange(shape.any_calls) == 0:
            story.any_call()
        elif rng.randrange(3) == 0 or not story.fitting_call():
            story.wait_a_while()
    return story.calls
