"""Prints the sheet of a plan and a script, or the listing of both.

    python3 tools/simulator/sheet.py [--plan FILE] [--listing] < script
"""

from __future__ import annotations

import argparse
import sys
from typing import Iterator, Union

from board import Board
from plans import Plan, listing, read_plan
from rules import HORIZON, Fault, Number, Refused, forecast_end, late_rule
from scripts import Line, read_script


def read_both(plan_data: bytes, script_data: bytes) -> Union[tuple[Plan, list[Line]], Fault]:
    """The plan and the script, or the first fault: the plan's, then the script's."""
    plan = read_plan(plan_data)
    if isinstance(plan, Fault):
        return plan
    script = read_script(script_data)
    if isinstance(script, Fault):
        return script
    return plan, script


def sheet_of_bytes(plan_data: bytes, script_data: bytes) -> str:
    """The sheet, or the line of the first fault."""
    both = read_both(plan_data, script_data)
    if isinstance(both, Fault):
        return both.text()
    return "".join(line + "\n" for line in sheet_lines(*both))


def listing_of_bytes(plan_data: bytes, script_data: bytes) -> str:
    """The plan's listing, its forecasts and the script's lines in time order, or the line of the first fault."""
    both = read_both(plan_data, script_data)
    if isinstance(both, Fault):
        return both.text()
    plan, script = both
    lines = list(forecast_lines(plan)) + [line.text() for line in in_time_order(script)]
    return listing(plan) + "".join(line + "\n" for line in lines)


def forecast_lines(plan: Plan) -> Iterator[str]:
    """When each action ends if it starts at instant 0 under the late rule."""
    for server in plan.servers:
        for action in server.actions:
            end = forecast_end(late_rule, 0, action.load, action.limit, action.period)
            refusal = 0
            if end > HORIZON:
                refusal, end = Number.OVER_HORIZON.value, 0
            yield f"forecast {server.number} {action.number} {refusal} {end}"


def in_time_order(script: list[Line]) -> list[Line]:
    """By instant; the sort keeps lines of one instant in their own order."""
    return sorted(script, key=lambda line: line.instant)


def sheet_lines(plan: Plan, script: list[Line]) -> Iterator[str]:
    board = Board()  # with the late rule
    for line in in_time_order(script):
        yield from run_until(board, line.instant)
        if line.letter != "W":
            yield perform(board, plan, line)


def run_until(board: Board, instant: int) -> Iterator[str]:
    """Advances to the instant, a printed line an advance."""
    while board.clock < instant:
        before = board.clock
        answer = board.advance(instant - board.clock)
        parts = [before, "R", answer.served or 0, answer.ticks, set_sum(answer.released),
                 set_sum(answer.ended), set_sum(answer.late)]
        yield " ".join(str(part) for part in parts)


def perform(board: Board, plan: Plan, line: Line) -> str:
    """Makes the call of an A, L or S line and gives the printed line."""
    refusal = 0
    forecast = 0
    try:
        forecast = call(board, plan, line)
    except Refused as refused:
        refusal = refused.number
    printed = f"{line.text()} {refusal}"
    if line.letter == "S":
        printed += f" {forecast}"
    return printed


def call(board: Board, plan: Plan, line: Line) -> int:
    """Answers the forecast end of an S line, 0 for the others."""
    number = line.numbers[0]
    if line.letter == "L":
        board.leave(number)
        return 0
    server = plan.server(number)
    if server is None:
        raise Refused(Number.NOT_IN_PLAN)
    if line.letter == "A":
        board.admit(number, server.cap)
        return 0
    action = server.action(line.numbers[1])
    if action is None:
        raise Refused(Number.NOT_IN_PLAN)
    return board.start(number, action.load, action.limit, action.period)


def set_sum(servers: set[int]) -> int:
    return sum(2 ** (number - 1) for number in servers)


def read_plan_file(name: str) -> bytes:
    """The bytes of the file. A missing file counts as no bytes."""
    try:
        with open(name, "rb") as file:
            return file.read()
    except FileNotFoundError:
        return b""


def main() -> None:
    parser = argparse.ArgumentParser(description="Print a sheet or a listing.")
    parser.add_argument("--plan", default="plan.bin", metavar="FILE")
    parser.add_argument("--listing", action="store_true",
                        help="print what the plan holds, when its actions end, and the script's lines")
    options = parser.parse_args()
    plan_data = read_plan_file(options.plan)
    script_data = sys.stdin.buffer.read()
    if options.listing:
        sys.stdout.write(listing_of_bytes(plan_data, script_data))
    else:
        sys.stdout.write(sheet_of_bytes(plan_data, script_data))


if __name__ == "__main__":
    main()
