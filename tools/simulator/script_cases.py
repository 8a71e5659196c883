"""Scripts for tests: planted ones, whose first fault is known, and random ones."""

from __future__ import annotations

from dataclasses import dataclass
from random import Random
from typing import Optional

from rules import HORIZON, LINES, Fault, script_fault
from scripts import Line, write_script


@dataclass(frozen=True)
class ScriptCase:
    name: str
    data: bytes
    fault: Optional[Fault]  # None if the script is good


def script_cases(rng: Random, count: int) -> list[bytes]:
    """The planted scripts, then random ones up to the count."""
    cases = [case.data for case in planted_scripts()]
    while len(cases) < count:
        cases.append(random_script_bytes(rng))
    return cases[:count]


# Planted scripts

GOOD_LINES = [b"0 A 1", b"5 W", b"3 S 1 255", b"0 L 0"]

# Lines that break the form, without their line feed.
BAD_LINES = [
    # too few parts, spaces out of place
    b"", b" ", b"  ", b"0", b"0 ", b"W", b" W", b" 0 W", b"0  W", b"0 W ", b"0W",
    b"0 A", b"0 A ", b"0 A  1", b"0 A 1 ", b"0  A 1", b"0 A1", b"0A 1", b" 0 A 1",
    b"0 L", b"0 L ", b"0 L  1", b"0 L 1 ", b"0 S", b"0 S ", b"0 S 1", b"0 S 1 ",
    b"0 S  1 2", b"0 S 1  2", b"0 S 1 2 ",
    # too many numbers
    b"0 W 1", b"0 W 0", b"0 A 1 2", b"0 L 1 2", b"0 S 1 2 3", b"0 W W", b"0 A A 1",
    # leading zeros
    b"00 W", b"01 W", b"00000000000001 W", b"0 A 01", b"0 A 00", b"0 A 0001",
    b"0 L 007", b"0 S 01 1", b"0 S 1 01", b"0 S 1 00",
    # signs and other ways to write numbers
    b"+0 W", b"+1 W", b"-1 W", b"-0 W", b"0 A +1", b"0 A -1", b"0 S 1 +1", b"0 L -0",
    b"0x1 W", b"1e3 W", b"1_0 W", b"1.0 W", b"1,0 W", b"0 A 1_0", b"0 A 0x1", b"0 A 1.",
    b"/ W", b": W", b"1: W", b"0 A /", b"0 A :", b"0 A 1:", b"a W", b"0 A a",
    # numbers too large
    b"1000000000001 W", b"1000000000009 A 1", b"9999999999999 W", b"10000000000000 W",
    b"4294967296000 W", b"9223372036854775808 W", b"18446744073709551615 W",
    b"18446744073709551616 W", b"18446744073709551617 A 1",
    b"340282366920938463463374607431768211456 W", b"1" + b"0" * 100 + b" W",
    b"9" * 5_000 + b" W", b"0 A 256", b"0 A 257", b"0 A 300", b"0 A 999", b"0 A 1000",
    b"0 L 256", b"0 S 256 1", b"0 S 1 256", b"0 S 256 256", b"0 A 65537",
    b"0 A 4294967296", b"0 A 4294967297", b"0 A 18446744073709551616",
    b"0 S 1 18446744073709551617", b"0 A " + b"9" * 300,
    # wrong letters
    b"0 a 1", b"0 l 1", b"0 s 1 1", b"0 w", b"0 R", b"0 R 1", b"0 B 1", b"0 @ 1", b"0 X",
    b"0 V", b"0 1 1", b"0 AA 1", b"0 WW", b"0 SW 1 1", b"0 \xc1 1", b"0 \xd7", b"A 0 1",
    # other line ends and white space
    b"0 W\r", b"0 A 1\r", b"\r", b"0 W\r0 W", b"0 W\x0b", b"0 W\x0c", b"0 W\x1e",
    b"0 W\x85", b"0 W\xe2\x80\xa8", b"0\tW", b"0 A\t1", b"\t0 W", b"0 W\t",
    # NUL bytes
    b"\0", b"\0" b"0 W", b"0\0W", b"0\0 W", b"0 \0W", b"0 W\0", b"0 A 1\0", b"0 A \0",
    # bytes that are not ASCII
    b"\xff", b"\xef\xbb\xbf0 W", b"0\xa0W", b"0\xc2\xa0W", b"\xd9\xa1 W", b"\xb1 W",
    b"0 A \xb1", b"0 A \xd9\xa1", b"0 A \xef\xbc\x91", b"0 A 1\xff", b"0 W\x80",
    # remarks are not part of the form
    b"# remark", b"0 W # remark",
]

GOOD_SCRIPTS = [
    ("no bytes", b""),
    ("one wait", b"0 W\n"),
    ("a line of each letter", b"0 A 1\n0 S 1 1\n1 L 1\n2 W\n"),
    ("the horizon", b"1000000000000 W\n1000000000000 A 1\n"),
    ("one below the horizon", b"999999999999 S 1 2\n"),
    ("numbers 0 and 255", b"0 A 0\n0 A 255\n0 L 0\n0 L 255\n0 S 0 0\n0 S 255 255\n"),
    ("numbers around two digits", b"9 A 9\n10 A 10\n99 L 99\n100 S 100 199\n249 A 249\n"),
    ("lines in any order", b"9 W\n3 A 2\n9 L 2\n0 A 1\n3 S 2 1\n0 W\n"),
    ("instants past 32 bits", b"4294967295 W\n4294967296 W\n4294967297 A 7\n"),
]


def rows(lines: list[bytes]) -> bytes:
    return b"".join(line + b"\n" for line in lines)


def planted_scripts() -> list[ScriptCase]:
    cases = [ScriptCase(name, data, None) for name, data in GOOD_SCRIPTS]
    for index, bad in enumerate(BAD_LINES):
        name = f"bad line {bad[:40]!r}"
        cases.append(ScriptCase(f"{name}, alone", rows([bad]), script_fault(1)))
        # Among good lines it stands at first, in the middle or at last, in turn.
        before = [0, 2, len(GOOD_LINES)][index % 3]
        lines = GOOD_LINES[:before] + [bad] + GOOD_LINES[before:]
        cases.append(ScriptCase(f"{name}, among good", rows(lines), script_fault(before + 1)))
    cases += missing_line_feeds()
    cases += long_scripts()
    return cases


def missing_line_feeds() -> list[ScriptCase]:
    good = rows(GOOD_LINES)
    data = [
        ("a wait", b"0 W", 1),
        ("an admit", b"0 A 1", 1),
        ("a digit", b"0", 1),
        ("a space", b" ", 1),
        ("a carriage return in its place", b"0 W\r", 1),
        ("a NUL byte in its place", b"0 W\0", 1),
        ("the last of five lines", good + b"7 L 1", 5),
        ("one byte after four lines", good + b"7", 5),
        ("a bad line comes first", b"0 W\n0 w\n0 W", 2),
        ("cut inside the last line", good[:-3], 4),
        ("only the last line feed is missing", good[:-1], 4),
        ("a carriage return after the last line feed", good + b"\r", 5),
        ("an end-of-file byte at the end", good + b"\x1a", 5),
    ]
    return [ScriptCase(f"no line feed: {name}", script, script_fault(place))
            for name, script, place in data]


def long_scripts() -> list[ScriptCase]:
    waits = [b"0 W"] * LINES
    mixed = []
    for index in range(LINES):
        line = GOOD_LINES[index % len(GOOD_LINES)]
        mixed.append(line)
    longest = [b"%d S 255 255" % (HORIZON - index) for index in range(LINES)]
    longest[0] = b"1000000000000 S 255 255"
    full = rows(waits)
    after = LINES + 1
    return [
        ScriptCase("1,024 waits", full, None),
        ScriptCase("1,024 mixed lines", rows(mixed), None),
        ScriptCase("1,024 long lines", rows(longest), None),
        ScriptCase("1,025 lines", rows(waits + [b"0 W"]), script_fault(after)),
        ScriptCase("1,100 lines", rows(waits + [b"0 W"] * 76), script_fault(after)),
        ScriptCase("a digit after line 1,024", full + b"0", script_fault(after)),
        ScriptCase("a NUL byte after line 1,024", full + b"\0", script_fault(after)),
        ScriptCase("an empty line 1,025", full + b"\n", script_fault(after)),
        ScriptCase("line 1,024 is bad", rows(waits[1:] + [b"0 w"]), script_fault(LINES)),
        ScriptCase("line 1,024 is bad, with line 1,025",
                   rows(waits[1:] + [b"0 w", b"0 W"]), script_fault(LINES)),
        ScriptCase("line 1 is bad, with line 1,025",
                   rows([b"0 w"] + waits), script_fault(1)),
        ScriptCase("line 1,024 without line feed", full[:-1], script_fault(LINES)),
    ]


# Random scripts

# Bytes that come close to the form.
NEAR_BYTES = b"0123456789 ASLWaslw\n\r\t\0+-/:@[\x80\xb0\xc1\xff"


def random_instant(rng: Random) -> int:
    kind = rng.randrange(5)
    if kind == 0:
        return rng.choice([0, 1, HORIZON - 1, HORIZON])
    if kind == 1:
        return rng.randint(0, HORIZON)
    if kind == 2:
        return 10 ** rng.randint(1, 12) - rng.randint(0, 1)
    return rng.randint(0, 1_000)


def random_number(rng: Random) -> int:
    return rng.choice([0, 1, 2, 9, 10, 64, 65, 99, 100, 255, rng.randint(0, 255)])


def random_line(rng: Random) -> Line:
    letter = rng.choice("AALSSW")
    how_many = {"A": 1, "L": 1, "S": 2, "W": 0}[letter]
    numbers = tuple(random_number(rng) for _ in range(how_many))
    return Line(random_instant(rng), letter, numbers)


def random_script_bytes(rng: Random) -> bytes:
    data = write_script([random_line(rng) for _ in range(rng.randint(1, 12))])
    kind = rng.randrange(10)
    if kind < 3:
        return data
    if kind == 3:
        return bytes(rng.choice(NEAR_BYTES) for _ in range(rng.randint(1, 40)))
    return damaged_script(rng, data)


def damaged_script(rng: Random, data: bytes) -> bytes:
    """Changes, inserts, repeats or takes out bytes, or cuts the end off."""
    for _ in range(rng.choice([1, 1, 1, 2])):
        position = rng.randrange(len(data)) if data else 0
        before, here, after = data[:position], data[position:position + 1], data[position + 1:]
        byte = bytes([rng.choice([rng.choice(NEAR_BYTES), rng.randrange(256)])])
        data = rng.choice([
            before + byte + after,
            before + byte + here + after,
            before + here + here + after,
            before + after,
            before,
        ])
    return data
