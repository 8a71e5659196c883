"""Tests of the simulator.

    python3 tools/simulator/test_simulator.py
"""

from __future__ import annotations

import copy
import os
import subprocess
import sys
import tempfile
import unittest
from dataclasses import replace
from random import Random

import board as board_module
from board import Answer, Board
from call_cases import call_cases
from calls import (Admit, Advance, Leave, Played, Reply, Start, Tick, call_text, play,
                   read_calls, write_calls)
from generate import (DEFAULT_COUNTS, MAKES, RULES, expected, expected_texts, make_pack,
                      read_pack)
from law import Broken, check_law
from plan_cases import planted_plans, random_plan
from plans import Plan, listing, read_plan, write_plan
from plantext import TextError, plan_text_to_bytes
from rules import (HORIZON, Fault, Refused, early_rule, first_boundary, forecast_end,
                   late_rule)
from script_cases import planted_scripts
from scripts import read_script, write_script
from sheet import listing_of_bytes, sheet_of_bytes
from sheet_cases import MOST_LINES, long_sheets, planted_sheets

HERE = os.path.dirname(os.path.abspath(__file__))
WORKED = os.path.join(HERE, "..", "..", "examples", "worked")

WORKED_SCRIPT = b"0 A 1\n0 A 2\n0 S 1 1\n1 S 2 1\n8 L 2\n"
WORKED_SHEET = """\
0 A 1 0
0 A 2 0
0 S 1 1 0 8
0 R 1 1 0 0 0
1 S 2 1 0 4
1 R 1 1 2 0 0
2 R 2 1 0 0 0
3 R 0 1 1 2 0
4 R 1 1 0 0 0
5 R 0 3 0 1 0
8 L 2 0
"""


def read_file(*parts: str) -> bytes:
    with open(os.path.join(*parts), "rb") as file:
        return file.read()


def refusal(call, *values) -> int:
    """The refusal number of the call, 0 if it is accepted."""
    try:
        call(*values)
    except Refused as refused:
        return refused.number
    return 0


def planted_sheet(name: str) -> list[str]:
    """Printed lines of the planted sheet case with this name."""
    for case in planted_sheets():
        if case.name == name:
            return sheet_of_bytes(case.plan, case.script).splitlines()
    raise KeyError(name)


class WorkedExample(unittest.TestCase):
    def test_sheet(self):
        self.assertEqual(sheet_of_bytes(read_file(WORKED, "plan.bin"), WORKED_SCRIPT),
                         WORKED_SHEET)

    def test_files(self):
        text = read_file(WORKED, "plan.txt").decode()
        self.assertEqual(plan_text_to_bytes(text), read_file(WORKED, "plan.bin"))
        self.assertEqual(read_file(WORKED, "script.txt"), WORKED_SCRIPT)
        self.assertEqual(read_file(WORKED, "sheet.txt").decode(), WORKED_SHEET)
        self.assertEqual(listing_of_bytes(read_file(WORKED, "plan.bin"), read_file(WORKED, "script.txt")),
                         read_file(WORKED, "listing.txt").decode())

    def test_lines_out_of_order(self):
        self.assertEqual("\n".join(planted_sheet("worked example, lines out of order")) + "\n",
                         WORKED_SHEET)


class Commands(unittest.TestCase):
    def run_tool(self, folder: str, script: bytes, *words: str) -> str:
        done = subprocess.run(
            [sys.executable, "-B", os.path.join(HERE, words[0]), *words[1:]], cwd=folder,
            input=script, stdout=subprocess.PIPE, check=True)
        return done.stdout.decode()

    def test_sheet_and_listing(self):
        with tempfile.TemporaryDirectory() as folder:
            self.assertEqual(self.run_tool(folder, b"bad", "sheet.py"), "fault 1 7 0\n")
            self.assertEqual(self.run_tool(folder, b"", "sheet.py", "--listing"),
                             "fault 1 7 0\n")
            text = os.path.join(WORKED, "plan.txt")
            self.assertEqual(self.run_tool(folder, b"", "plantext.py", text, "plan.bin"), "")
            self.assertEqual(self.run_tool(folder, WORKED_SCRIPT, "sheet.py"), WORKED_SHEET)
            self.assertEqual(self.run_tool(folder, b"bad", "sheet.py"), "fault 3 12 1\n")
            self.assertEqual(self.run_tool(folder, WORKED_SCRIPT, "sheet.py", "--listing"),
                             read_file(WORKED, "listing.txt").decode())

    def test_generate(self):
        with tempfile.TemporaryDirectory() as folder:
            for what in DEFAULT_COUNTS:
                self.run_tool(folder, b"", "generate.py", what, "--seed", "3",
                              "--count", "20", "cases.pack")
                printed = self.run_tool(folder, b"", "generate.py", f"{what}-expected",
                                        "cases.pack")
                heads = [line for line in printed.splitlines() if line.startswith("case ")]
                tails = [""]
                if what == "calls":
                    tails = [f" {make} {rule}" for rule in RULES for make in MAKES]
                self.assertEqual(heads, [f"case {index}{tail}" for index in range(1, 21)
                                         for tail in tails])


class Figures(unittest.TestCase):
    def test_forecast_ends(self):
        figures = [
            (late_rule, 0, 3, 2, 4, 8),
            (late_rule, 1, 1, 1, 2, 4),
            (late_rule, 10, 5, 2, 4, 24),
            (early_rule, 10, 5, 2, 4, 20),
            (early_rule, 1, 1, 2, 4, 4),
            (early_rule, 3, 1, 1, 4, 8),
            (late_rule, 0, 98, 2, 20, 980),
            (late_rule, 1, 98, 2, 20, 1000),
        ]
        for rule, arrival, load, limit, period, end in figures:
            self.assertEqual(forecast_end(rule, arrival, load, limit, period), end)

    def test_rules_answer_0_outside_their_range(self):
        self.assertEqual(early_rule(1, 4, 2, 4), 1)
        self.assertEqual(early_rule(1, 1_000_000, 999_999, 1_000_000), 999_998)
        outside = [(1, 4, 0, 4), (1, 4, 5, 4), (1, 4, 2, 0), (1, 2, 2, 1_000_001),
                   (5, 4, 2, 4), (0, 4, 2, 4), (4, 4, 2, 4)]
        for values in outside:
            self.assertEqual(early_rule(*values), 0)
            self.assertEqual(late_rule(*values), 0)

    def test_first_boundary(self):
        for arrival, period, boundary in [(0, 4, 0), (1, 4, 4), (4, 4, 4), (5, 4, 8),
                                          (7, 1, 7), (HORIZON - 1, 8, HORIZON)]:
            self.assertEqual(first_boundary(arrival, period), boundary)

    def test_caps(self):
        board = Board()
        board.admit(1, 250_000)
        self.assertEqual(refusal(board.start, 1, 1, 1, 3), 24)
        self.assertEqual(refusal(board.start, 1, 1, 1, 4), 0)
        board = Board()
        board.admit(1, 500_000)
        board.admit(2, 500_000)
        self.assertEqual(refusal(board.admit, 3, 1), 22)
        board.leave(1)
        self.assertEqual(refusal(board.admit, 3, 1), 0)
        self.assertEqual(refusal(board.admit, 1, 500_000), 22)
        self.assertEqual(refusal(board.admit, 1, 499_999), 0)

    def test_horizon(self):
        board = Board()
        board.admit(1, 250_000)
        board.advance(999_999_999_996)
        self.assertEqual(board.clock, 999_999_999_996)
        self.assertEqual(refusal(board.start, 1, 1, 1, 8), 25)
        self.assertEqual(board.start(1, 1, 1, 4), HORIZON)
        answer = board.advance(HORIZON)
        self.assertEqual((answer.served, answer.ticks), (1, 1))
        answer = board.advance(HORIZON)
        self.assertEqual((answer.served, answer.ticks, answer.ended), (None, 3, {1}))
        self.assertEqual(board.clock, HORIZON)
        self.assertEqual(refusal(board.tick), 26)
        self.assertEqual(refusal(board.advance, 1), 26)
        self.assertEqual(refusal(board.advance, 0), 6)
        self.assertEqual(refusal(board.advance, HORIZON + 1), 6)
        self.assertEqual(refusal(board.start, 1, 1, 1, 4), 25)


class OrderOfRefusals(unittest.TestCase):
    """Each call has several reasons to be refused; the first in order counts."""

    def board(self) -> Board:
        board = Board()
        board.advance(HORIZON - 5)
        board.admit(1, 500_000)  # rests
        board.admit(2, 500_000)  # at work
        board.start(2, 1, 1, 5)
        return board

    def check(self, board: Board, call, values, number: int):
        before = copy.deepcopy(vars(board))
        self.assertEqual(refusal(call, *values), number, values)
        self.assertEqual(vars(board), before)

    def test_admit(self):
        board = self.board()
        for values, number in [((0, 0), 1), ((65, 1), 1), ((1, 0), 2), ((1, 1_000_001), 2),
                               ((3, 0), 2), ((1, 1_000_000), 21), ((3, 1), 22)]:
            self.check(board, board.admit, values, number)

    def test_leave(self):
        board = self.board()
        for number, expected in [(0, 1), (65, 1), (3, 20), (64, 20), (2, 23)]:
            self.check(board, board.leave, (number,), expected)

    def test_start(self):
        board = self.board()
        for values, number in [
                ((0, 0, 0, 0), 1), ((65, 1, 1, 1), 1), ((3, 0, 0, 0), 3),
                ((3, 1_000_001, 0, 0), 3), ((3, 1, 0, 0), 4), ((3, 1, 0, 1_000_001), 4),
                ((3, 1, 0, 1), 5), ((3, 1, 2, 1), 5), ((3, 1, 1, 1), 20), ((2, 9, 1, 1), 23),
                ((1, 9, 1, 1), 24), ((1, 9, 9, 10), 24), ((1, 9, 1, 10), 25)]:
            self.check(board, board.start, values, number)

    def test_advance_at_the_horizon(self):
        board = Board()
        board.advance(HORIZON)
        for count, number in [(0, 6), (-1, 6), (HORIZON + 1, 6), (1, 26), (HORIZON, 26)]:
            self.check(board, board.advance, (count,), number)
        self.check(board, board.tick, (), 26)


class Late(unittest.TestCase):
    def test_late_server_keeps_its_load(self):
        """Two servers with the whole processor each: only possible past the checks."""
        board = Board()
        board.admit(1, 1_000_000)
        board.servers[2] = board_module.Server(1_000_000)
        board.start(1, 2, 2, 2)
        board.start(2, 3, 2, 2)
        self.assertEqual(board.tick(), Answer(1))
        self.assertEqual(board.tick(), Answer(1, 1, {2}, {1}, {2}))
        self.assertEqual(board.tick(), Answer(2))
        self.assertEqual(board.tick(), Answer(2, 1, {2}, set(), set()))
        self.assertEqual(board.tick(), Answer(2))
        self.assertEqual(board.tick(), Answer(None, 1, set(), {2}, set()))


class PlantedFaults(unittest.TestCase):
    def test_plans(self):
        numbers = set()
        for case in planted_plans():
            with self.subTest(case.name):
                result = read_plan(case.data)
                if case.fault is None:
                    self.assertIsInstance(result, Plan)
                    self.assertEqual(write_plan(result), case.data)
                else:
                    self.assertEqual(result, case.fault)
                    numbers.add((case.fault.layer, case.fault.number))
        self.assertEqual(numbers, {(1, 7), (1, 8), (1, 9), (2, 1), (2, 2), (2, 3), (2, 4),
                                   (2, 5), (2, 11)})

    def test_scripts(self):
        for case in planted_scripts():
            with self.subTest(case.name):
                result = read_script(case.data)
                if case.fault is None:
                    self.assertIsInstance(result, list)
                    self.assertEqual(write_script(result), case.data)
                else:
                    self.assertEqual(result, case.fault)

    def test_fault_text(self):
        self.assertEqual(listing_of_bytes(b"", b""), "fault 1 7 0\n")
        self.assertEqual(sheet_of_bytes(b"", b"bad"), "fault 1 7 0\n")
        plan = read_file(WORKED, "plan.bin")
        self.assertEqual(sheet_of_bytes(plan, b"0 W\n0 W"), "fault 3 12 2\n")
        self.assertEqual(sheet_of_bytes(plan, b""), "")


class PlanText(unittest.TestCase):
    def test_round_trip(self):
        rng = Random(11)
        plans = [case.data for case in planted_plans() if case.fault is None]
        plans += [write_plan(random_plan(rng)) for _ in range(50)]
        for data in plans:
            self.assertEqual(plan_text_to_bytes(listing(read_plan(data))), data)

    def test_remarks_and_count(self):
        text = "# remark\n\nserver 1 cap 5\n  # remark\naction 2 load 1 limit 1 period 1\n"
        good = plan_text_to_bytes(text)
        self.assertEqual(good, plan_text_to_bytes("\nplan of 3 records\n" + text))
        short = plan_text_to_bytes("plan of 2 records\n" + text)
        self.assertEqual(read_plan(short), Fault(1, 7, 0))

    def test_faulty_plans_can_be_written(self):
        for text, fault in [
                ("server 65 cap 1", Fault(2, 1, 1)),
                ("server 1 cap 4294967295", Fault(2, 2, 1)),
                ("action 1 load 1 limit 1 period 1", Fault(1, 9, 1)),
                ("server 1 cap 1\naction 0 load 1 limit 1 period 1", Fault(1, 8, 2)),
                ("server 1 cap 1\nserver 1 cap 1", Fault(2, 11, 2))]:
            self.assertEqual(read_plan(plan_text_to_bytes(text)), fault)

    def test_errors(self):
        for text in ["server 1", "server 256 cap 1", "server 1 cap 4294967296",
                     "server 1 cap -1", "server 1 cap 1 2", "plan of 1 record", "x",
                     "server 1 cap 1\nplan of 2 records"]:
            with self.assertRaises(TextError):
                plan_text_to_bytes(text)


class Sheets(unittest.TestCase):
    def test_64_servers(self):
        lines = planted_sheet("64 servers start after a boundary")
        self.assertIn(f"1 R 0 63 {2 ** 64 - 1} 0 0", lines)
        self.assertEqual(lines[-64:-1], [f"{63 + number} R {number} 1 0 0 0"
                                         for number in range(1, 64)])
        self.assertEqual(lines[-1], f"127 R 64 1 0 {2 ** 64 - 1} 0")

    def test_refusals(self):
        self.assertEqual(planted_sheet("22"), [
            "0 A 1 0", "0 A 2 0", "0 A 3 22", "0 A 4 22", "0 R 0 1 0 0 0", "1 L 1 0",
            "1 A 4 22", "1 A 3 0", "1 A 1 22", "1 R 0 1 0 0 0", "2 L 2 0", "2 A 4 22",
            "2 L 3 0", "2 A 4 0", "2 A 3 22"])
        self.assertEqual(planted_sheet("1 in an L line"), [
            "0 L 0 1", "0 L 1 20", "0 L 64 20", "0 L 65 1", "0 L 255 1"])
        self.assertEqual(planted_sheet("13 with an empty plan"), [
            "0 A 1 13", "0 S 1 1 13 0", "0 L 1 20", "0 A 0 13", "0 A 255 13",
            "0 S 0 0 13 0", "0 S 255 255 13 0", "0 R 0 5 0 0 0"])
        self.assertEqual(planted_sheet("order of 13, 20, 23, 24, 25"), [
            "0 S 1 2 20 0", "0 A 1 0", "0 A 2 22", "0 S 1 2 24 0", "0 R 0 1 0 0 0",
            "1 S 1 3 25 0", "1 S 1 4 24 0", "1 S 1 9 13 0", "1 S 1 1 0 4", "1 S 1 2 23 0",
            "1 S 1 3 23 0", "1 S 1 9 13 0", "1 S 2 1 13 0", "1 R 0 1 1 0 0",
            "2 R 1 1 0 0 0", "3 R 0 1 0 1 0", "4 R 0 5 0 0 0"])

    def test_horizon(self):
        self.assertEqual(planted_sheet("waits only"), [
            "0 R 0 3 0 0 0", "3 R 0 2 0 0 0", f"5 R 0 {HORIZON - 5} 0 0 0"])
        self.assertEqual(planted_sheet("ends at the horizon"), [
            "0 A 1 0", "0 R 0 999999999996 0 0 0",
            "999999999996 S 1 1 0 1000000000000", "999999999996 R 1 1 0 0 0",
            "999999999997 R 0 3 0 1 0"])
        self.assertEqual(planted_sheet("calls at the horizon"), [
            f"0 R 0 {HORIZON} 0 0 0", f"{HORIZON} A 1 0", f"{HORIZON} S 1 1 25 0",
            f"{HORIZON} S 1 4 24 0", f"{HORIZON} L 1 0", f"{HORIZON} A 2 0",
            f"{HORIZON} A 1 0", f"{HORIZON} A 2 21"])
        self.assertEqual(planted_sheet("the longest action")[:2],
                         ["0 A 1 0", f"0 S 1 2 0 {HORIZON}"])


def row_of_stretches(rule, arrival, load, limit, period):
    """The action's stretches (begin, end, amount) if none is late."""
    stretches = []
    begin = first_boundary(arrival, period)
    if arrival < begin:
        amount = min(load, rule(arrival, begin, limit, period))
        stretches.append((arrival, begin, amount))
        load -= amount
        if load == 0:
            return stretches
    while load > 0:
        amount = min(limit, load)
        stretches.append((begin, begin + period, amount))
        begin += period
        load -= amount
    return stretches


class RandomRuns(unittest.TestCase):
    """Random calls on a board with caps shared out in full."""

    def run_board(self, rng: Random, rule, ticks: int) -> int:
        """Runs a board and answers how many actions ended."""
        board = Board(rule)
        servers = rng.randint(1, 9)
        cap = 1_000_000 // servers
        least_period = (1_000_000 + cap - 1) // cap  # the least that takes a limit of 1
        for number in range(1, servers + 1):
            board.admit(number, cap)
        expected: dict[int, list] = {}  # stretches still to come, per server at work
        ended = 0
        for _ in range(ticks):
            for number in range(1, servers + 1):
                if number not in expected and rng.randrange(6) == 0:
                    period = rng.randint(least_period, 5 * least_period)
                    fits = cap * period // 1_000_000
                    limit = rng.choice([fits, rng.randint(1, fits)])
                    load = rng.randint(1, 4 * limit)
                    forecast = board.start(number, load, limit, period)
                    expected[number] = row_of_stretches(rule, board.clock, load, limit, period)
                    self.assertEqual(expected[number][-1][1], forecast)
            for number, stretches in expected.items():
                work = board.servers[number].work
                begin, end, amount = stretches[0]
                self.assertEqual((work.begin, work.end), (begin, end))
                if begin == board.clock:
                    self.assertEqual(work.unserved, amount)
            served = board.first_ready()
            answer = board.tick()
            self.assertEqual(answer.served, served)
            self.assertEqual(answer.late, set())
            for number in answer.released | answer.ended:
                _, end, _ = expected[number].pop(0)
                self.assertEqual(end, board.clock)
            for number in answer.ended:
                self.assertEqual(expected.pop(number), [])
                ended += 1
        return ended

    def test_never_late_and_forecasts_hold(self):
        for seed in range(30):
            for rule in [late_rule, early_rule]:
                self.assertGreater(self.run_board(Random(seed), rule, 300), 0)

    def test_advance_is_a_row_of_ticks(self):
        """Compares advance, which may leap, with single ticks on a copy of the board."""
        rng = Random(5)
        for rule in [late_rule, early_rule]:
            board = Board(rule)
            for number in range(1, 5):
                board.admit(number, 250_000)
            for _ in range(400):
                number = rng.randint(1, 4)
                if board.servers[number].work is None:
                    limit = rng.randint(1, 5)
                    board.start(number, rng.randint(1, 12), limit,
                                limit * 4 + rng.randint(0, 30))
                count = rng.randint(1, 40)
                twin = copy.deepcopy(board)
                answer = board.advance(count)
                ticks = [twin.tick() for _ in range(answer.ticks)]
                self.assertTrue(all(tick.is_quiet() for tick in ticks[:-1]))
                self.assertEqual({tick.served for tick in ticks}, {answer.served})
                ticks[-1].ticks = answer.ticks
                self.assertEqual(ticks[-1], answer)
                self.assertEqual(vars(twin), vars(board))
                if answer.ticks < count and answer.is_quiet():
                    self.assertNotEqual(twin.tick().served, answer.served)


class Calls(unittest.TestCase):
    def test_bytes(self):
        calls = [Admit(255, 2**32 - 1), Leave(7), Start(1, 2, 3, 4), Tick(), Advance(2**64 - 1)]
        self.assertEqual(read_calls(write_calls(calls)), calls)
        self.assertEqual(write_calls([Start(1, 2, 3, 260)]),
                         bytes([2, 1, 2, 0, 0, 0, 3, 0, 0, 0, 4, 1, 0, 0]))

    def test_worked_example(self):
        calls = [Admit(1, 500_000), Admit(2, 500_000), Admit(3, 1), Start(1, 3, 2, 4), Tick(),
                 Start(2, 1, 1, 2), Start(2, 1, 1, 2), Advance(9), Advance(9), Advance(9), Tick(),
                 Advance(9), Leave(2), Advance(HORIZON), Tick(), Advance(0), Leave(0)]
        texts = [call_text(call, reply) for call, reply in play(late_rule, calls)]
        self.assertEqual("".join(texts), """\
admit 1 500000 0
admit 2 500000 0
admit 3 1 22
start 1 3 2 4 0 8
tick 0 1 0 0 0
start 2 1 1 2 0 4
start 2 1 1 2 23 0
advance 9 0 1 1 2 0 0
advance 9 0 2 1 0 0 0
advance 9 0 0 1 1 2 0
tick 0 1 0 0 0
advance 9 0 0 3 0 1 0
leave 2 0
advance 1000000000000 0 0 999999999992 0 0 0
tick 26 0 0 0 0
advance 0 6 0 0 0 0 0
leave 0 1
""")

    def test_every_refusal(self):
        seen: dict[str, set[int]] = {}
        for calls in call_cases(Random(1), DEFAULT_COUNTS["calls"]):
            for call, reply in play(late_rule, calls):
                seen.setdefault(type(call).__name__, set()).add(reply.refusal)
        self.assertEqual(seen, {
            "Admit": {0, 1, 2, 21, 22}, "Leave": {0, 1, 20, 23},
            "Start": {0, 1, 3, 4, 5, 20, 23, 24, 25}, "Tick": {0, 26}, "Advance": {0, 6, 26}})

    def test_size(self):
        text = expected("calls", read_pack(make_pack("calls", 1, DEFAULT_COUNTS["calls"])))
        self.assertLess(text.count("\n"), 30_000)
        self.assertLess(len(text), 1_000_000)


class Law(unittest.TestCase):
    """The law accepts what the simulator plays, and nothing that is altered."""

    # Server 1 is served in ticks 0, 1 and 4, server 2 in tick 2. At 4 server 1 is released;
    # at 8 both end. Server 3 rests.
    CALLS = [Admit(1, 500_000), Admit(2, 250_000), Admit(3, 250_000), Start(1, 3, 2, 4),
             Start(2, 1, 1, 8), *[Tick()] * 9, Leave(1), Admit(4, 500_001)]
    TICK = 5  # the place of tick 0 in the list

    def altered(self, changes: dict[int, Reply]) -> Played:
        """The list as it is played, but for the replies at these places."""
        played = play(late_rule, self.CALLS)
        check_law(late_rule, played)
        return [(call, changes.get(place, reply)) for place, (call, reply) in enumerate(played)]

    def refuse(self, clause: str, changes: dict[int, Reply]) -> None:
        with self.assertRaisesRegex(Broken, rf"^\({clause}\)"):
            check_law(late_rule, self.altered(changes))

    def tick(self, served=None, released=(), ended=(), late=()) -> Reply:
        return Reply(served=served, ticks=1, released=frozenset(released),
                     ended=frozenset(ended), late=frozenset(late))

    def test_nothing_altered(self):
        tick = self.TICK
        self.altered({})
        self.assertEqual(self.altered({}), self.altered({
            tick: self.tick(1), tick + 2: self.tick(2), tick + 3: self.tick(released={1}),
            tick + 4: self.tick(1), tick + 7: self.tick(ended={1, 2})}))

    def test_true_lists(self):
        for seed in [2, 3]:
            for calls in call_cases(Random(seed), DEFAULT_COUNTS["calls"]):
                for rule in RULES.values():
                    check_law(rule, play(rule, calls))

    def test_the_rule_matters(self):
        calls = [Admit(1, 500_000), *[Tick()] * 10, Start(1, 5, 2, 4), *[Tick()] * 14]
        with self.assertRaises(Broken):
            check_law(early_rule, play(late_rule, calls))
        with self.assertRaises(Broken):
            check_law(late_rule, play(early_rule, calls))

    def test_serves_a_resting_server(self):
        self.refuse("a", {self.TICK + 3: self.tick(3, released={1})})
        self.refuse("a", {self.TICK + 5: self.tick(4)})
        self.refuse("a", {self.TICK + 8: self.tick(1)})

    def test_serves_too_much_or_too_little(self):
        self.refuse("b", {self.TICK + 5: self.tick(1)})
        self.refuse("b", {self.TICK + 1: self.tick(), self.TICK + 5: self.tick(1)})
        self.refuse("g", {self.TICK + 4: self.tick()})

    def test_ends_one_period_early(self):
        tick = self.TICK
        self.refuse("g", {tick + 3: self.tick(ended={1}), tick + 4: self.tick(),
                          tick + 7: self.tick(ended={2})})
        self.refuse("b", {tick + 3: self.tick(1, ended={1}), tick + 4: self.tick(),
                          tick + 7: self.tick(ended={2})})

    def test_ends_one_tick_late_or_early(self):
        tick = self.TICK
        self.refuse("g", {tick + 7: self.tick(ended={2}), tick + 8: self.tick(ended={1})})
        self.refuse("g", {tick + 6: self.tick(ended={1}), tick + 7: self.tick(ended={2})})
        self.refuse("g", {tick + 2: self.tick(2, ended={2}), tick + 7: self.tick(ended={1})})

    def test_never_ends(self):
        self.refuse("f", {self.TICK + 7: self.tick(ended={2})})  # 1 could not leave
        self.refuse("g", {self.TICK + 7: self.tick(ended={1})})

    def test_late_server(self):
        self.refuse("a", {self.TICK + 7: self.tick(ended={1, 2}, late={2})})
        self.refuse("a", {self.TICK + 3: self.tick(released={1}, late={1})})

    def test_released_without_a_boundary(self):
        self.refuse("g", {self.TICK + 2: self.tick(2, released={1})})
        self.refuse("g", {self.TICK + 3: self.tick()})

    def test_refusals(self):
        last = len(self.CALLS) - 1
        for place, refusal in [(0, 21), (1, 22), (3, 24), (4, 25), (self.TICK, 26),
                               (last - 1, 23), (last - 1, 20), (last, 0), (last, 2), (last, 28)]:
            self.refuse("f", {place: Reply(refusal)})

    def test_answered_ends(self):
        for end in [0, 4, 7, 9]:
            self.refuse("f", {3: Reply(end=end)})

    def test_advance_claims_one_tick_more(self):
        altered = 0
        for calls in call_cases(Random(6), 30):
            played = play(early_rule, calls)
            for place, (call, reply) in enumerate(played):
                if isinstance(call, Advance) and reply.refusal == 0:
                    longer = list(played)
                    longer[place] = (call, replace(reply, ticks=reply.ticks + 1))
                    with self.assertRaises(Broken):
                        check_law(early_rule, longer)
                    altered += 1
        self.assertGreater(altered, 500)

    def test_advance_stops_short(self):
        calls = [Admit(1, 500_000), Start(1, 4, 4, 8), Advance(9), Advance(9), Advance(9)]
        true = play(late_rule, calls)
        self.assertEqual([reply.ticks for _, reply in true[2:]], [4, 4, 9])
        short = play(late_rule, [*calls[:2], Advance(3), *calls[2:]])
        short[2] = (Advance(9), short[2][1])
        with self.assertRaisesRegex(Broken, r"^\(f\) .* is too short"):
            check_law(late_rule, short)


class Generator(unittest.TestCase):
    def texts(self, what: str, seed: int) -> list[str]:
        return expected_texts(what, read_pack(make_pack(what, seed, DEFAULT_COUNTS[what])))

    def test_same_seed_same_pack(self):
        for what, count in DEFAULT_COUNTS.items():
            pack = make_pack(what, 7, count)
            self.assertEqual(pack, make_pack(what, 7, count))
            self.assertNotEqual(pack, make_pack(what, 8, count))

    def test_plans(self):
        self.assertLess(len(make_pack("plans", 1, DEFAULT_COUNTS["plans"])), 300_000)
        texts = self.texts("plans", 1)
        numbers = {text.split()[2] for text in texts if text.startswith("fault")}
        self.assertEqual(numbers, {"1", "2", "3", "4", "5", "7", "8", "9", "11"})
        self.assertTrue(any(text.startswith("plan of 1024 ") for text in texts))
        self.assertTrue(any(text.startswith("plan of 1 ") for text in texts))

    def test_sheets(self):
        refusals = set()
        for seed in [1, 2]:
            texts = self.texts("sheets", seed)
            self.assertLess(sum(map(len, texts)), 1_500_000)
            planted = len(planted_sheets())
            long = range(planted, planted + len(long_sheets()))
            for index, text in enumerate(texts):
                lines = [line.split() for line in text.splitlines()]
                if index not in long:
                    self.assertLessEqual(len(lines), MOST_LINES)
                for parts in lines:
                    if parts[0] == "fault":
                        continue
                    if parts[1] == "R":
                        self.assertEqual(parts[6], "0")  # never late
                    else:
                        refusals.add((parts[1], parts[4 if parts[1] == "S" else 3]))
        self.assertEqual(refusals, {
            ("A", "0"), ("A", "13"), ("A", "21"), ("A", "22"),
            ("L", "0"), ("L", "1"), ("L", "20"), ("L", "23"),
            ("S", "0"), ("S", "13"), ("S", "20"), ("S", "23"), ("S", "24"), ("S", "25")})


if __name__ == "__main__":
    unittest.main()
