"""Scripts: bytes to lines or fault, lines to bytes. All on bytes, not on decoded text."""

from __future__ import annotations

from dataclasses import dataclass
from typing import Optional, Union

from rules import HORIZON, LINES, Fault, script_fault

# How many numbers follow each letter.
NUMBERS_AFTER = {b"A": 1, b"L": 1, b"S": 2, b"W": 0}
LARGEST_NUMBER = 255

LINE_FEED = b"\n"
DIGITS = b"0123456789"


@dataclass(frozen=True)
class Line:
    instant: int
    letter: str
    numbers: tuple[int, ...] = ()

    def text(self) -> str:
        parts = [str(self.instant), self.letter] + [str(number) for number in self.numbers]
        return " ".join(parts)


def read_script(data: bytes) -> Union[list[Line], Fault]:
    lines: list[Line] = []
    position = 0
    while position < len(data):
        line_number = len(lines) + 1
        if line_number > LINES:
            return script_fault(line_number)
        feed = data.find(LINE_FEED, position)
        if feed == -1:
            return script_fault(line_number)
        line = read_line(data[position:feed])
        if line is None:
            return script_fault(line_number)
        lines.append(line)
        position = feed + 1
    return lines


def read_line(row: bytes) -> Optional[Line]:
    """The line without its line feed, or None if it breaks the form."""
    parts = row.split(b" ")  # two spaces in a row give an empty part
    if len(parts) < 2:
        return None
    instant = read_number(parts[0], HORIZON)
    if instant is None:
        return None
    letter = parts[1]
    if letter not in NUMBERS_AFTER:
        return None
    if len(parts) - 2 != NUMBERS_AFTER[letter]:
        return None
    numbers = []
    for part in parts[2:]:
        number = read_number(part, LARGEST_NUMBER)
        if number is None:
            return None
        numbers.append(number)
    return Line(instant, letter.decode("ascii"), tuple(numbers))


def read_number(part: bytes, most: int) -> Optional[int]:
    """A number 0..most in decimal digits without leading zeros."""
    if part == b"":
        return None
    if any(byte not in DIGITS for byte in part):
        return None
    if part[0:1] == b"0" and part != b"0":
        return None
    if len(part) > len(str(most)):
        return None  # more digits, so larger
    number = int(part)
    if number > most:
        return None
    return number


def write_script(lines: list[Line]) -> bytes:
    return b"".join(line.text().encode("ascii") + LINE_FEED for line in lines)
