"""Plans with scripts for tests of the sheet: planted ones and random ones."""

from __future__ import annotations

from dataclasses import dataclass
from itertools import islice
from random import Random

from board import Board
from plan_cases import build, damaged_plan
from plans import Action, Plan, Server, action_record, server_record, write_plan
from rules import HORIZON, LARGEST, SERVERS, WHOLE
from script_cases import damaged_script, random_number
from scripts import Line, write_script
from sheet import perform, run_until, sheet_lines

MOST_LINES = 400  # in a sheet of a random case


@dataclass(frozen=True)
class SheetCase:
    name: str
    plan: bytes
    script: bytes


def sheet_cases(rng: Random, count: int) -> list[tuple[bytes, bytes]]:
    """The planted cases, the long ones, then random ones up to the count."""
    cases = [(case.plan, case.script) for case in planted_sheets() + long_sheets()]
    while len(cases) < count:
        cases.append(random_sheet(rng))
    return cases[:count]


# Planted cases

def case(name: str, records: list[bytes], *lines: str) -> SheetCase:
    return SheetCase(name, build(records), "".join(line + "\n" for line in lines).encode())


WORKED = [
    server_record(1, 500_000), action_record(1, 3, 2, 4),
    server_record(2, 500_000), action_record(1, 1, 1, 2),
]
WORKED_LINES = ["0 A 1", "0 A 2", "0 S 1 1", "1 S 2 1", "8 L 2"]


def planted_sheets() -> list[SheetCase]:
    cases = faulty_inputs()
    cases += refusals()
    cases += schedules()
    cases += near_the_horizon()
    return cases


def faulty_inputs() -> list[SheetCase]:
    good_script = "".join(line + "\n" for line in WORKED_LINES).encode()
    bad_plan = build([server_record(1, 0)])
    return [
        SheetCase("no plan, no script", b"", b""),
        SheetCase("no plan", b"", good_script),
        SheetCase("no plan, bad script", b"", b"0 w\n"),
        SheetCase("bad plan", bad_plan, good_script),
        SheetCase("bad plan, bad script", bad_plan, b"x"),
        SheetCase("bad script", build(WORKED), b"0 A 1\n0 A 2\n0 S 1\n"),
        SheetCase("no script", build(WORKED), b""),
        SheetCase("head only, no script", build([]), b""),
    ]


def refusals() -> list[SheetCase]:
    caps = [
        server_record(1, 500_000), server_record(2, 500_000), server_record(3, 1),
        server_record(4, WHOLE),
    ]
    quarter = [
        server_record(1, 250_000), action_record(1, 1, 1, 4), action_record(2, 1, 1, 3),
        action_record(3, 4, 250_000, LARGEST), action_record(4, 4, 250_001, LARGEST),
    ]
    order = [
        server_record(1, 500_000),
        action_record(1, 1, 1, 2),
        action_record(2, 1, 2, 3),            # too much for the cap
        action_record(3, LARGEST, 1, LARGEST),  # ends at the horizon from instant 0
        action_record(4, LARGEST, LARGEST, LARGEST),  # too much for the cap
        server_record(2, 500_001),
    ]
    return [
        case("13 with an empty plan", [], "0 A 1", "0 S 1 1", "0 L 1", "0 A 0", "0 A 255",
             "0 S 0 0", "0 S 255 255", "5 W"),
        case("13 comes first", WORKED, "0 A 3", "0 S 3 1", "0 S 1 2", "0 A 1", "0 S 1 2",
             "0 S 1 0", "0 S 1 255", "0 S 1 1", "1 S 1 2", "2 A 65", "2 A 0", "9 W"),
        case("1 in an L line", WORKED, "0 L 0", "0 L 1", "0 L 64", "0 L 65", "0 L 255"),
        case("20", WORKED, "0 L 1", "0 S 1 1", "0 A 1", "0 L 1", "0 L 1", "0 S 1 1", "3 W"),
        case("21", WORKED, "0 A 1", "0 A 1", "0 S 1 1", "1 A 1", "8 A 1", "8 L 1", "8 A 1"),
        case("22", caps, "0 A 1", "0 A 2", "0 A 3", "0 A 4", "1 L 1", "1 A 4", "1 A 3",
             "1 A 1", "2 L 2", "2 A 4", "2 L 3", "2 A 4", "2 A 3"),
        case("21 before 22", caps, "0 A 4", "0 A 4", "0 A 1"),
        case("23", WORKED, "0 A 1", "0 S 1 1", "0 S 1 1", "0 L 1", "3 S 1 1", "3 L 1",
             "7 L 1", "8 S 1 1", "9 L 1", "16 L 1"),
        case("23 in a stretch of amount 0", WORKED, "0 A 1", "1 S 1 1", "1 L 1", "3 S 1 1",
             "3 L 1", "12 L 1"),
        case("24", quarter, "0 A 1", "0 S 1 2", "0 S 1 4", "0 S 1 1", "4 S 1 2", "4 S 1 3",
             "20 W"),
        case("order of 13, 20, 23, 24, 25", order, "0 S 1 2", "0 A 1", "0 A 2", "0 S 1 2",
             "1 S 1 3", "1 S 1 4", "1 S 1 9", "1 S 1 1", "1 S 1 2", "1 S 1 3", "1 S 1 9",
             "1 S 2 1", "9 W"),
    ]


def schedules() -> list[SheetCase]:
    all_servers = []
    for number in range(1, SERVERS + 1):
        all_servers.append(server_record(number, 15_625))
        all_servers.append(action_record(1, 1, 1, 64))
    admits = [f"0 A {number}" for number in range(1, SERVERS + 1)]
    starts_on = [f"0 S {number} 1" for number in range(SERVERS, 0, -1)]
    starts_after = [f"1 S {number} 1" for number in range(1, SERVERS + 1)]

    thirds = []
    for number in [1, 2, 3]:
        thirds.append(server_record(number, 333_333))
        thirds.append(action_record(1, 7, 3, 10))
        thirds.append(action_record(2, 5, 1, 4))
    whole = [
        server_record(64, WHOLE), action_record(1, 7, 1, 1), action_record(2, 7, 5, 5),
        action_record(3, LARGEST, LARGEST, LARGEST), action_record(4, 3, 9, 9),
    ]
    shorter = [
        server_record(1, 500_000), action_record(1, 50, 50, 100),
        server_record(2, 250_000), action_record(1, 6, 1, 4),
        server_record(3, 250_000), action_record(1, 3, 1, 10), action_record(2, 2, 2, 8),
    ]
    swap = [
        server_record(1, WHOLE), action_record(1, 4, 2, 2),
        server_record(2, 600_000), action_record(1, 6, 3, 5),
        server_record(3, 400_000), action_record(1, 4, 2, 5),
    ]
    tiny = [server_record(1, 1), action_record(1, 3, 1, LARGEST),
            action_record(2, LARGEST, 1, LARGEST)]
    return [
        case("worked example", WORKED, *WORKED_LINES),
        case("worked example, lines out of order", WORKED,
             "8 L 2", "1 S 2 1", "0 A 1", "0 A 2", "0 S 1 1"),
        case("a wait cuts an advance in two", WORKED, "0 A 1", "6 W", "0 S 1 1", "7 W",
             "7 W", "8 W", "12 W"),
        case("waits only", WORKED, "0 W", "0 W", "5 W", "5 W", "1000000000000 W", "3 W"),
        case("1,024 waits", WORKED,
             *[f"{(1_023 - index) // 10} W" for index in range(1_024)]),
        case("64 servers start on a boundary", all_servers, *admits, *starts_on, "70 W"),
        case("64 servers start after a boundary", all_servers, *admits, *starts_after,
             "128 W"),
        case("three servers, equal ends", thirds, "0 A 3", "0 A 1", "0 A 2", "0 S 2 1",
             "0 S 3 1", "0 S 1 1", "30 S 1 2", "30 S 2 1", "31 S 3 2", "70 W"),
        case("the whole processor", whole, "0 A 64", "0 S 64 1", "7 S 64 2", "20 S 64 4",
             "40 W"),
        case("the whole processor, largest values", whole, "0 A 64", "0 S 64 3",
             "150000 W"),
        case("shorter periods come first", shorter, "0 A 1", "0 A 2", "0 A 3", "0 S 1 1",
             "3 S 2 1", "7 S 3 1", "41 S 3 2", "50 S 2 1", "100 S 1 1", "120 W"),
        case("start and leave at the end of an action", WORKED, "0 A 1", "0 A 2", "0 S 1 1",
             "0 S 2 1", "2 S 2 1", "4 L 2", "8 S 1 1", "16 L 1", "20 W"),
        case("a share changes hands", swap, "0 A 1", "0 S 1 1", "4 A 2", "4 L 1", "4 A 2",
             "4 A 3", "5 S 2 1", "5 S 3 1", "15 L 2", "15 L 3", "15 A 1", "15 S 1 1",
             "20 W"),
        case("the least cap", tiny, "0 A 1", "999999 S 1 1", "3000000 S 1 1", "5000000 W"),
        case("the longest action", tiny, "0 A 1", "0 S 1 2", "10000000 W"),
        case("the longest action, one tick too late", tiny, "0 A 1", "1 S 1 2", "1 S 1 1",
             "5000000 W"),
    ]


def near_the_horizon() -> list[SheetCase]:
    quarter = [
        server_record(1, 250_000), action_record(1, 1, 1, 4), action_record(2, 1, 1, 8),
        action_record(3, 2, 1, 4), action_record(4, 1, 2, 4),
        server_record(2, 750_000), action_record(1, 3, 3, 4), action_record(2, 1, 1, 5),
    ]
    return [
        case("ends at the horizon", quarter, "0 A 1", "999999999996 S 1 1",
             "1000000000000 W"),
        case("25 at the last periods", quarter, "999999999990 A 1", "999999999996 S 1 2",
             "999999999996 S 1 3", "999999999996 S 1 4", "999999999996 S 1 1",
             "999999999999 L 1", "1000000000000 L 1"),
        case("the last boundary", quarter, "0 A 1", "999999999993 S 1 1",
             "999999999997 S 1 1", "1000000000000 S 1 1"),
        case("calls at the horizon", quarter, "1000000000000 A 1", "1000000000000 S 1 1",
             "1000000000000 S 1 4", "1000000000000 L 1", "1000000000000 A 2",
             "1000000000000 A 1", "1000000000000 W", "1000000000000 A 2"),
        case("both servers to the horizon", quarter, "999999999980 A 1",
             "999999999981 A 2", "999999999984 S 1 3", "999999999989 S 2 2",
             "999999999992 S 1 1", "1000000000000 S 2 1", "999999999996 S 2 1"),
        case("far apart", quarter, "0 A 1", "500000000000 A 2", "500000000001 S 1 3",
             "500000000001 S 2 1", "999999999999 L 1"),
    ]


def long_sheets() -> list[SheetCase]:
    """Thousands of lines, up to the most records and the most script lines."""
    halves = [server_record(1, 500_000), action_record(1, LARGEST, 1, 2),
              server_record(2, 500_000), action_record(1, LARGEST, 2, 4)]

    unequal = [server_record(1, 500_000), action_record(1, 2_000, 6, 12),
               server_record(2, 300_000), action_record(1, 900, 3, 10),
               server_record(3, 200_000), action_record(1, 14, 7, 35)]
    replies = [f"{instant} S 3 1" for instant in range(0, 5_000, 50)]

    crowd = []
    for number in range(1, SERVERS + 1):
        limit = 1 + number % 3
        crowd += [server_record(number, 15_625), action_record(1, LARGEST, limit, 64 * limit)]
    crowd_lines = [f"0 A {number}" for number in range(1, SERVERS + 1)] + [
        f"{5 * number} S {number} 1" for number in range(1, SERVERS + 1)]

    single = [server_record(7, WHOLE), action_record(1, 1, 1, 1)]
    single_lines = [f"{instant} S 7 1" for instant in range(1_022, -1, -1)]

    many_actions = []
    for number, actions in [(61, 255), (62, 255), (63, 255), (64, 254)]:
        many_actions.append(server_record(number, 250_000))
        many_actions += [action_record(action, 1 + action % 9, 1 + action % 3, 12 + action % 17)
                         for action in range(actions, 0, -1)]
    many_lines = [f"0 A {number}" for number in range(61, 65)] + [
        f"{7 * index} S {61 + index % 4} {1 + index % 255}" for index in range(1_020)]
    return [
        case("turn by turn", halves, "0 A 1", "0 A 2", "0 S 1 1", "1 S 2 1", "4000 W"),
        case("unequal periods", unequal, "0 A 1", "0 A 2", "0 A 3", "7 S 1 1", "3 S 2 1",
             *replies, "5000 W"),
        case("64 servers share the processor", crowd, *crowd_lines, "4000 W"),
        case("1,024 lines, the last ones first", single, "0 A 7", *single_lines),
        case("1,024 records", many_actions, *many_lines),
    ]


# Random cases

@dataclass(frozen=True)
class Shape:
    """What a random case looks like."""

    servers: int
    stretch: int         # periods are up to about this many times the least that fits
    largest_limit: int
    start: int           # instant of the first lines
    longest_wait: int
    crowded: bool = False  # periods fit together and all servers start at once


def random_shape(rng: Random) -> Shape:
    servers = rng.choice([1, 2, 2, 3, 3, 4, 5, 6, 8, 12, rng.randint(13, SERVERS), SERVERS])
    kind = rng.randrange(14)
    if kind >= 10:
        start = rng.choice([0, 1, rng.randint(0, HORIZON), HORIZON - rng.randint(50, 2_000)])
        return Shape(servers, 1, 1_000, start, rng.choice([3, 10, 30]), crowded=True)
    if kind < 5:
        return Shape(servers, rng.choice([1, 2, 5]), 1_000, 0, rng.choice([3, 10, 30]))
    if kind < 7:
        start = HORIZON - rng.choice([0, 1, rng.randint(2, 60), rng.randint(60, 1_000)])
        return Shape(servers, rng.choice([1, 2, 5]), 1_000, start, rng.choice([3, 10]))
    if kind < 9:
        start = rng.randint(1, HORIZON)
        return Shape(servers, rng.choice([1, 3, 10]), 1_000, start, rng.choice([3, 20, 100]))
    return Shape(min(servers, 8), 10_000, 200, rng.randint(0, 1_000), 50_000)


def random_sheet(rng: Random) -> tuple[bytes, bytes]:
    shape = random_shape(rng)
    plan = busy_plan(rng, shape)
    kind = rng.randrange(20)
    if kind < 14:
        script = told_script(rng, plan, shape)
    else:
        script = blind_script(rng, plan, shape)
    plan_data = write_plan(plan)
    script_data = write_script(script)
    if kind == 18:
        plan_data = damaged_plan(rng, plan_data)
    if kind == 19:
        script_data = damaged_script(rng, script_data)
    return plan_data, script_data


def shared_caps(rng: Random, servers: int) -> list[int]:
    """Caps that add up to the whole processor, or to nearly as much."""
    if rng.randrange(3) > 0:
        return [WHOLE // servers] * servers
    cuts = sorted(rng.sample(range(1, WHOLE), servers - 1))
    return [after - before for before, after in zip([0] + cuts, cuts + [WHOLE])]


def busy_plan(rng: Random, shape: Shape) -> Plan:
    caps = shared_caps(rng, shape.servers)
    extra = rng.randint(0, min(2, SERVERS - shape.servers))  # these do not fit as well
    caps += [rng.randint(1, WHOLE) for _ in range(extra)]
    numbers = rng.sample(range(1, SERVERS + 1), len(caps))
    plan = Plan()
    for number, cap in zip(numbers, caps):
        server = Server(number, cap)
        for action_number in rng.sample([1, 2, 3, 4, 254, 255], rng.randint(1, 4)):
            server.actions.append(busy_action(rng, shape, action_number, cap))
        plan.servers.append(server)
    return plan


def busy_action(rng: Random, shape: Shape, number: int, cap: int) -> Action:
    """An action that mostly takes all its cap allows, seldom more than that."""
    least_period = (WHOLE + cap - 1) // cap  # the least that takes a limit of 1
    if shape.crowded:
        period = min(LARGEST, least_period * rng.choice([1, 2, 2, 4]))
    else:
        period = rng.randint(least_period, min(LARGEST, least_period * shape.stretch + 5))
    fits = cap * period // WHOLE
    limit = min(rng.choice([fits, fits, rng.randint(1, fits)]), shape.largest_limit)
    if rng.randrange(20) == 0 and fits < period:
        limit = fits + 1
    load = min(LARGEST, rng.randint(1, limit * rng.choice([1, 2, 4, 10])))
    return Action(number, load, limit, period)


class Story:
    """Writes a script while a board runs along, so that calls come at fitting moments."""

    def __init__(self, rng: Random, plan: Plan, most_lines: int):
        self.rng = rng
        self.plan = plan
        self.board = Board()
        self.lines: list[Line] = []
        self.lines_left = most_lines

    def wait(self, instant: int) -> None:
        """Runs to the instant, or until enough lines are printed."""
        for _ in run_until(self.board, min(instant, HORIZON)):
            self.lines_left -= 1
            if self.lines_left <= 0:
                break

    def call(self, letter: str, *numbers: int) -> None:
        line = Line(self.board.clock, letter, numbers)
        self.lines.append(line)
        if letter != "W":
            perform(self.board, self.plan, line)
            self.lines_left -= 1

    def fitting_call(self) -> bool:
        """Makes a call that is likely to be accepted, if there is one."""
        room = WHOLE - self.board.caps_held()
        absent = [server for server in self.plan.servers
                  if server.number not in self.board.servers and server.cap <= room]
        resting = [server for server in self.plan.servers
                   if server.number in self.board.servers
                   and self.board.servers[server.number].work is None]
        if absent and (not resting or self.rng.randrange(3) == 0):
            self.call("A", self.rng.choice(absent).number)
        elif resting and self.rng.randrange(20) == 0:
            self.call("L", self.rng.choice(resting).number)
        elif resting:
            server = self.rng.choice(resting)
            self.call("S", server.number, self.rng.choice(server.actions).number)
        else:
            return False
        return True

    def any_call(self) -> None:
        """A call that is likely to be refused."""
        server = self.rng.choice(self.plan.servers)
        number = server.number
        action_number = self.rng.choice(server.actions).number
        if self.rng.randrange(4) == 0:
            number = random_number(self.rng)
        if self.rng.randrange(4) == 0:
            action_number = random_number(self.rng)
        letter = self.rng.choice("ALSW")
        if letter == "S":
            self.call("S", number, action_number)
        elif letter == "W":
            self.call("W")
        else:
            self.call(letter, number)


def told_script(rng: Random, plan: Plan, shape: Shape) -> list[Line]:
    story = Story(rng, plan, rng.randint(30, MOST_LINES - 20))
    story.wait(shape.start)
    for server in plan.servers:
        story.call("A", server.number)
    if shape.crowded:
        for server in rng.sample(plan.servers, len(plan.servers)):
            story.call("S", server.number, rng.choice(server.actions).number)
    calls_at_horizon = 0
    while story.lines_left > 0 and calls_at_horizon < 10:
        if rng.randrange(3) == 0:
            story.wait(story.board.clock + rng.randint(1, shape.longest_wait))
        if story.board.clock == HORIZON:
            calls_at_horizon += 1
        if rng.randrange(6) == 0:
            story.any_call()
        elif not story.fitting_call() and story.board.calendar():
            # All are at work: go on to where the next stretch ends.
            next_end, _ = story.board.calendar()[0]
            story.wait(next_end)
    story.call("W")
    return out_of_order(rng, story.lines)


def out_of_order(rng: Random, lines: list[Line]) -> list[Line]:
    """Mixes the lines, but keeps those of one instant in their order."""
    if rng.randrange(3) == 0:
        return lines
    instants = [line.instant for line in lines]
    rng.shuffle(instants)
    waiting: dict[int, list[Line]] = {}
    for line in lines:
        waiting.setdefault(line.instant, []).append(line)
    return [waiting[instant].pop(0) for instant in instants]


def blind_script(rng: Random, plan: Plan, shape: Shape) -> list[Line]:
    """Lines at random, fewer of them until the sheet is short enough."""
    lines = []
    for server in plan.servers:
        lines.append(Line(shape.start, "A", (server.number,)))
    for _ in range(rng.randint(5, 60)):
        instant = min(HORIZON, shape.start + rng.randint(0, shape.longest_wait * 10))
        server = rng.choice(plan.servers)
        letter = rng.choice("ALSSSSW")
        numbers = {
            "A": (server.number,), "L": (server.number,), "W": (),
            "S": (server.number, rng.choice(server.actions).number),
        }[letter]
        lines.append(Line(instant, letter, numbers))
    while sheet_is_too_long(plan, lines):
        lines.sort(key=lambda line: line.instant)
        del lines[len(lines) * 3 // 4:]
    rng.shuffle(lines)
    return lines


def sheet_is_too_long(plan: Plan, lines: list[Line]) -> bool:
    start = islice(sheet_lines(plan, lines), MOST_LINES + 1)
    return len(list(start)) > MOST_LINES
