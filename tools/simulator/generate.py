"""Makes test cases by seed, and prints what is expected of them.

    python3 tools/simulator/generate.py plans    [--seed S] [--count N] OUT.pack
    python3 tools/simulator/generate.py scripts  [--seed S] [--count N] OUT.pack
    python3 tools/simulator/generate.py sheets   [--seed S] [--count N] OUT.pack
    python3 tools/simulator/generate.py calls    [--seed S] [--count N] OUT.pack
    python3 tools/simulator/generate.py plans-expected    IN.pack
    python3 tools/simulator/generate.py scripts-expected  IN.pack
    python3 tools/simulator/generate.py sheets-expected   IN.pack
    python3 tools/simulator/generate.py calls-expected    IN.pack

A pack is a row of items, each a 4-byte little-endian length and that many bytes.
A case is one item: a plan, a script, or a list of calls. A sheet case is two: a plan, then a
script.
"""

from __future__ import annotations

import argparse
import sys
from random import Random

from call_cases import call_cases
from calls import call_text, play, read_calls, write_calls
from law import check_law
from plan_cases import plan_cases
from plans import Plan, write_plan
from rules import early_rule, late_rule
from script_cases import script_cases
from sheet import listing_of_bytes, sheet_of_bytes
from sheet_cases import sheet_cases

DEFAULT_COUNTS = {"plans": 270, "scripts": 470, "sheets": 300, "calls": 48}

RULES = {"late": late_rule, "early": early_rule}
MAKES = ["row/row", "heap/heap", "row/window-row", "heap/window-heap"]  # ready queue/calendar


def write_pack(items: list[bytes]) -> bytes:
    return b"".join(len(item).to_bytes(4, "little") + item for item in items)


def read_pack(data: bytes) -> list[bytes]:
    items = []
    position = 0
    while position < len(data):
        start = position + 4
        length = int.from_bytes(data[position:start], "little")
        if start + length > len(data):
            raise ValueError("the pack ends inside an item")
        items.append(data[start:start + length])
        position = start + length
    return items


def make_pack(what: str, seed: int, count: int) -> bytes:
    rng = Random(seed)
    if what == "plans":
        return write_pack(plan_cases(rng, count))
    if what == "scripts":
        return write_pack(script_cases(rng, count))
    if what == "calls":
        return write_pack(list(map(write_calls, call_cases(rng, count))))
    items = []
    for plan, script in sheet_cases(rng, count):
        items += [plan, script]
    return write_pack(items)


def expected_texts(what: str, items: list[bytes]) -> list[str]:
    if what == "plans":
        return [listing_of_bytes(item, b"") for item in items]
    if what == "scripts":
        return [listing_of_bytes(write_plan(Plan()), item) for item in items]
    if len(items) % 2 != 0:
        raise ValueError("the pack ends after a plan without its script")
    return [sheet_of_bytes(plan, script) for plan, script in zip(items[0::2], items[1::2])]


def calls_expected(items: list[bytes]) -> str:
    """Each list under each rule and on each make of board, where all answer the same. An
    error if the share law does not hold."""
    texts = []
    for index, item in enumerate(items, start=1):
        calls = read_calls(item)
        for name, rule in RULES.items():
            played = play(rule, calls)
            check_law(rule, played)
            lines = "".join(call_text(call, reply) for call, reply in played)
            texts += [f"case {index} {make} {name}\n{lines}" for make in MAKES]
    return "".join(texts)


def expected(what: str, items: list[bytes]) -> str:
    if what == "calls":
        return calls_expected(items)
    return with_case_lines(expected_texts(what, items))


def with_case_lines(texts: list[str]) -> str:
    return "".join(f"case {index}\n{text}" for index, text in enumerate(texts, start=1))


def main() -> None:
    parser = argparse.ArgumentParser(description="Make test cases by seed.")
    commands = parser.add_subparsers(dest="command", required=True)
    for what, count in DEFAULT_COUNTS.items():
        make = commands.add_parser(what, help=f"write a pack of {what}")
        make.add_argument("--seed", type=int, default=1)
        make.add_argument("--count", type=int, default=count)
        make.add_argument("pack", metavar="OUT.pack")
        show = commands.add_parser(f"{what}-expected", help=f"print what {what} should give")
        show.add_argument("pack", metavar="IN.pack")
    options = parser.parse_args()

    what = options.command.split("-")[0]
    if options.command == what:
        with open(options.pack, "wb") as file:
            file.write(make_pack(what, options.seed, options.count))
    else:
        with open(options.pack, "rb") as file:
            items = read_pack(file.read())
        sys.stdout.write(expected(what, items))


if __name__ == "__main__":
    main()
