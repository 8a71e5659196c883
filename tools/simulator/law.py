"""The share law, read from calls, their answers and the release rule alone.

`check_law` knows nothing of a board. From calls and answers it notes which ticks there were,
whom they served, and from when to when each action was at work, and holds that to the law:

(a) no tick serves a server without an action at work, no stretch ends with part of its
    amount unserved, and every late set is empty;
(b) at each boundary reached up to an action's end, the ticks that served it number its first
    amount and its limit for each full period since the first boundary, or its load where
    that is smaller, and never more than by the next boundary; it ends at the earliest
    boundary where that number is its load;
(c) from arrival to end takes at least period * floor(load / limit) and at most
    period - 1 + period * ceil(load / limit);
(d) an action ends at the instant that its start answered;
(e) the caps admitted at any moment add up to the processor or less;
(f) each answer is the one that the checks of the call give on what the calls before it have
    left, and an advance is as long as it may be;
(g) released and ended sets are exactly the servers at work that come to a boundary, those
    with load still owed and those with none.
"""

from __future__ import annotations

from dataclasses import dataclass, field
from itertools import count, pairwise, takewhile
from typing import Iterator, Optional

from calls import Admit, Advance, Call, Leave, Played, Reply, Start, Tick
from rules import (HORIZON, LARGEST, SERVERS, WHOLE, Number, ReleaseRule, first_amount,
                   first_boundary, forecast_end)


class Broken(Exception):
    """The law does not hold."""


def require(holds: bool, what: str) -> None:
    if not holds:
        raise Broken(what)


def check_law(rule: ReleaseRule, played: Played) -> None:
    past = Past(rule)
    for call, reply in played:
        check_answer(past, call, reply)
        note(past, call, reply)
        require(sum(past.caps.values()) <= WHOLE, f"(e) after {call}")
    for run in past.runs:
        check_run(past, run)
    for run, later in pairwise(past.runs):
        check_length(run, later)
    for action in past.actions:
        check_numbers(past, action)
        check_stretches(past, action)
        check_end(past, action)


# What calls and answers tell

@dataclass(frozen=True)
class Run:
    """The ticks of one call. All serve the same server, or none; those before the last have
    empty sets, the last has the answered ones."""

    begin: int
    end: int
    most: int          # how many ticks there might have been: 1, or what the advance may do
    after_start: bool  # whether a start came between the ticks before and these
    served: Optional[int]
    released: frozenset[int]
    ended: frozenset[int]
    late: frozenset[int]


@dataclass
class Action:
    server: int
    load: int
    limit: int
    period: int
    arrival: int
    boundary: int              # the first boundary
    first: int                 # the first amount
    answered: int              # the end that its start answered
    end: Optional[int] = None  # its end, once it is reached

    def at_work(self, begin: int, end: int) -> bool:
        """Whether it is at work from the one instant to the other."""
        return self.arrival <= begin and (self.end is None or end <= self.end)

    def owed_by(self, boundary: int) -> int:
        """The number of (b)."""
        full_periods = (boundary - self.boundary) // self.period
        return min(self.load, self.first + self.limit * full_periods)


@dataclass
class Past:
    """What the calls so far have left, and all that they have done."""

    rule: ReleaseRule
    clock: int = 0
    caps: dict[int, int] = field(default_factory=dict)        # of the servers admitted
    working: dict[int, Action] = field(default_factory=dict)  # the actions at work
    after_start: bool = False
    actions: list[Action] = field(default_factory=list)
    runs: list[Run] = field(default_factory=list)

    def served(self, server: int, begin: int, end: int) -> int:
        """How many ticks between two instants served the server."""
        return sum(max(0, min(run.end, end) - max(run.begin, begin)) for run in self.runs
                   if run.served == server)

    def boundaries(self, action: Action) -> Iterator[int]:
        """The boundaries reached up to the action's end."""
        last = self.clock if action.end is None else action.end
        return takewhile(lambda instant: instant <= last, count(action.boundary, action.period))


def note(past: Past, call: Call, reply: Reply) -> None:
    if reply.refusal != 0:
        return
    match call:
        case Admit(server, cap):
            past.caps[server] = cap
        case Leave(server):
            del past.caps[server]
        case Start(server, load, limit, period):
            action = Action(server, load, limit, period, arrival=past.clock,
                            boundary=first_boundary(past.clock, period),
                            first=first_amount(past.rule, past.clock, limit, period),
                            answered=reply.end)
            past.actions.append(action)
            past.working[server] = action
            past.after_start = True
        case Tick():
            note_ticks(past, 1, reply)
        case Advance(most):
            note_ticks(past, min(most, HORIZON - past.clock), reply)


def note_ticks(past: Past, most: int, reply: Reply) -> None:
    end = past.clock + reply.ticks
    past.runs.append(Run(past.clock, end, most, past.after_start, reply.served, reply.released,
                         reply.ended, reply.late))
    past.clock = end
    past.after_start = False
    for server in reply.ended & past.working.keys():
        past.working.pop(server).end = end


# Answers

def check_answer(past: Past, call: Call, reply: Reply) -> None:
    """(f), but for the ticks"""
    refusal = next((number for number, holds in checks(past, call) if holds), 0)
    require(reply.refusal == refusal, f"(f) {call} gets {reply.refusal} and not {refusal}")
    if refusal != 0:
        require(reply == Reply(refusal), f"(f) {call} is refused and answers {reply}")
    elif isinstance(call, Start):
        end = forecast_end(past.rule, past.clock, call.load, call.limit, call.period)
        require(reply == Reply(end=end), f"(f) {call} answers {reply} and not {end}")
    elif isinstance(call, (Admit, Leave)):
        require(reply == Reply(), f"(f) {call} answers {reply}")


def checks(past: Past, call: Call) -> Iterator[tuple[int, bool]]:
    """The refusals of a call in their order, each with whether its condition holds. The
    conditions may rest on those before not holding."""
    match call:
        case Admit(server, cap):
            yield Number.SERVER, not 1 <= server <= SERVERS
            yield Number.CAP, not 1 <= cap <= WHOLE
            yield Number.ADMITTED, server in past.caps
            yield Number.CAPS_FULL, sum(past.caps.values()) + cap > WHOLE
        case Leave(server):
            yield Number.SERVER, not 1 <= server <= SERVERS
            yield Number.NOT_ADMITTED, server not in past.caps
            yield Number.AT_WORK, server in past.working
        case Start(server, load, limit, period):
            yield Number.SERVER, not 1 <= server <= SERVERS
            yield Number.LOAD, not 1 <= load <= LARGEST
            yield Number.PERIOD, not 1 <= period <= LARGEST
            yield Number.LIMIT, not 1 <= limit <= period
            yield Number.NOT_ADMITTED, server not in past.caps
            yield Number.AT_WORK, server in past.working
            yield Number.OVER_CAP, limit * WHOLE > past.caps[server] * period
            end = forecast_end(past.rule, past.clock, load, limit, period)
            yield Number.OVER_HORIZON, end > HORIZON
        case Tick():
            yield Number.CLOCK_AT_HORIZON, past.clock == HORIZON
        case Advance(most):
            yield Number.COUNT, not 1 <= most <= HORIZON
            yield Number.CLOCK_AT_HORIZON, past.clock == HORIZON


# Ticks

def check_run(past: Past, run: Run) -> None:
    """(a) but for the stretches, (g), and of (f) that there are no more ticks than may be"""
    require(1 <= run.end - run.begin <= run.most, f"(f) {run} is not from 1 to {run.most} ticks")
    working = [action for action in past.actions if action.at_work(run.begin, run.end)]
    if run.served is not None:
        require(run.served in {action.server for action in working},
                f"(a) {run} serves a server that has no action at work")
    require(not run.late, f"(a) {run} has late servers")
    released, ended = set(), set()
    for action in working:
        boundary = first_boundary(run.begin + 1, action.period)
        require(boundary >= run.end, f"(g) {run} runs over the boundary {boundary} of {action}")
        if boundary == run.end:
            owed = action.load - past.served(action.server, action.arrival, boundary)
            (released if owed > 0 else ended).add(action.server)
    require(run.released == released, f"(g) {run} does not release {released}")
    require(run.ended == ended, f"(g) {run} does not end {ended}")


def check_length(run: Run, later: Run) -> None:
    """(f): an advance stops only where it has made as many ticks as it may, a set is not
    empty, or the next tick serves another server. A start in between may change the next."""
    if run.end - run.begin < run.most and not (run.released or run.ended or run.late):
        require(later.after_start or later.served != run.served, f"(f) {run} is too short")


# Actions

def check_numbers(past: Past, action: Action) -> None:
    """(b)"""
    for boundary in past.boundaries(action):
        served = past.served(action.server, action.arrival, boundary)
        owed = action.owed_by(boundary)
        require(served == owed, f"(b) {action} has {served} ticks at {boundary}, not {owed}")
    if action.end is None:
        served = past.served(action.server, action.arrival, past.clock)
        owed = action.owed_by(first_boundary(past.clock + 1, action.period))
        require(served <= owed, f"(b) {action} has {served} ticks at {past.clock}, over {owed}")
    full = (boundary for boundary in past.boundaries(action)
            if action.owed_by(boundary) == action.load)
    require(action.end == next(full, None), f"(b) {action} does not end where its load is owed")


def check_stretches(past: Past, action: Action) -> None:
    """(a): no stretch ends with part of its amount unserved"""
    begin, left = action.arrival, action.load
    for end in past.boundaries(action):
        if end > begin:
            amount = min(left, action.first if end == action.boundary else action.limit)
            served = past.served(action.server, begin, end)
            require(served >= amount, f"(a) {action} has {served} of {amount} ticks at {end}")
            begin, left = end, left - served


def check_end(past: Past, action: Action) -> None:
    """(c) and (d)"""
    if action.end is None:
        require(past.clock < action.answered, f"(d) {action} has not ended at {past.clock}")
        return
    require(action.end == action.answered, f"(d) {action} has not ended as answered")
    took = action.end - action.arrival
    least = action.period * (action.load // action.limit)
    most = action.period - 1 + action.period * -(-action.load // action.limit)
    require(least <= took <= most, f"(c) {action} took {took}, not {least} to {most}")
