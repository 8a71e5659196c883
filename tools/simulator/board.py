"""The board: servers, their actions, the ready queue, the calendar and the calls."""

from __future__ import annotations

from dataclasses import dataclass, field
from typing import Optional

from rules import (HORIZON, LARGEST, SERVERS, WHOLE, Number, Refused, ReleaseRule,
                   first_amount, first_boundary, forecast_end, late_rule)


@dataclass
class Work:
    """An action at work and its present stretch."""

    limit: int
    period: int
    load_left: int
    begin: int     # begin of the present stretch
    end: int       # end of the present stretch
    unserved: int  # ticks the present stretch still owes


@dataclass
class Server:
    """An admitted server. It rests if it has no work."""

    cap: int
    work: Optional[Work] = None


@dataclass
class Answer:
    """Answer of a tick or an advance."""

    served: Optional[int]
    ticks: int = 1
    released: set[int] = field(default_factory=set)
    ended: set[int] = field(default_factory=set)
    late: set[int] = field(default_factory=set)

    def is_quiet(self) -> bool:
        return not self.released and not self.ended and not self.late


class Board:
    def __init__(self, rule: ReleaseRule = late_rule):
        self.rule = rule
        self.clock = 0
        self.servers: dict[int, Server] = {}

    # Calls

    def admit(self, number: int, cap: int) -> None:
        check_server_number(number)
        if not 1 <= cap <= WHOLE:
            raise Refused(Number.CAP)
        if number in self.servers:
            raise Refused(Number.ADMITTED)
        if self.caps_held() + cap > WHOLE:
            raise Refused(Number.CAPS_FULL)
        self.servers[number] = Server(cap)

    def leave(self, number: int) -> None:
        check_server_number(number)
        self.check_resting(number)
        del self.servers[number]

    def start(self, number: int, load: int, limit: int, period: int) -> int:
        """Answers the forecast end."""
        check_server_number(number)
        if not 1 <= load <= LARGEST:
            raise Refused(Number.LOAD)
        if not 1 <= period <= LARGEST:
            raise Refused(Number.PERIOD)
        if not 1 <= limit <= period:
            raise Refused(Number.LIMIT)
        self.check_resting(number)
        server = self.servers[number]
        if limit * WHOLE > server.cap * period:
            raise Refused(Number.OVER_CAP)
        forecast = forecast_end(self.rule, self.clock, load, limit, period)
        if forecast > HORIZON:
            raise Refused(Number.OVER_HORIZON)
        server.work = self.first_stretch(load, limit, period)
        return forecast

    def tick(self) -> Answer:
        if self.clock == HORIZON:
            raise Refused(Number.CLOCK_AT_HORIZON)
        answer = Answer(served=self.first_ready())
        if answer.served is not None:
            work = self.servers[answer.served].work
            work.unserved -= 1
            work.load_left -= 1
        self.clock += 1
        for end, number in self.calendar():
            if end == self.clock:
                self.close_stretch(number, answer)
        return answer

    def advance(self, count: int) -> Answer:
        """Ticks up to count times, as long as the same server (or none) is served
        and no tick before the last releases, ends or makes late."""
        if not 1 <= count <= HORIZON:
            raise Refused(Number.COUNT)
        if self.clock == HORIZON:
            raise Refused(Number.CLOCK_AT_HORIZON)
        most = min(count, HORIZON - self.clock)
        served = self.first_ready()
        ticks = 0
        if served is None:
            ticks = self.leap(most - 1)
        while True:
            answer = self.tick()
            ticks += 1
            if ticks == most or not answer.is_quiet() or self.first_ready() != served:
                answer.ticks = ticks
                return answer

    # State as lists

    def caps_held(self) -> int:
        return sum(server.cap for server in self.servers.values())

    def calendar(self) -> list[tuple[int, int]]:
        """(end of present stretch, server) of all servers at work, in order."""
        return sorted((server.work.end, number) for number, server in self.servers.items()
                      if server.work is not None)

    def ready_queue(self) -> list[tuple[int, int]]:
        """(end of present stretch, server) of all servers with amount unserved, in order."""
        return sorted((server.work.end, number) for number, server in self.servers.items()
                      if server.work is not None and server.work.unserved > 0)

    def first_ready(self) -> Optional[int]:
        queue = self.ready_queue()
        if not queue:
            return None
        _, number = queue[0]
        return number

    # Parts of the calls

    def check_resting(self, number: int) -> None:
        if number not in self.servers:
            raise Refused(Number.NOT_ADMITTED)
        if self.servers[number].work is not None:
            raise Refused(Number.AT_WORK)

    def first_stretch(self, load: int, limit: int, period: int) -> Work:
        arrival = self.clock
        boundary = first_boundary(arrival, period)
        if arrival < boundary:
            amount = first_amount(self.rule, arrival, limit, period)
            return Work(limit, period, load, arrival, boundary, min(load, amount))
        return Work(limit, period, load, boundary, boundary + period, min(limit, load))

    def close_stretch(self, number: int, answer: Answer) -> None:
        """Closes the present stretch and begins the next one if load is left."""
        server = self.servers[number]
        work = server.work
        if work.unserved > 0:
            answer.late.add(number)  # the unserved part is still in load_left
        if work.load_left == 0:
            server.work = None
            answer.ended.add(number)
        else:
            work.begin = work.end
            work.end = work.begin + work.period
            work.unserved = min(work.limit, work.load_left)
            answer.released.add(number)

    def leap(self, most: int) -> int:
        """The only place where ticks are not done one at a time. With an empty ready
        queue a tick serves none and, before the least end in the calendar, closes no
        stretch: it only moves the clock. This does up to `most` such ticks at once and
        stops one tick before the least end. Answers how many it did."""
        ticks = most
        calendar = self.calendar()
        if calendar:
            least_end, _ = calendar[0]
            ticks = min(most, least_end - 1 - self.clock)
        self.clock += ticks
        return ticks


def check_server_number(number: int) -> None:
    if not 1 <= number <= SERVERS:
        raise Refused(Number.SERVER)
