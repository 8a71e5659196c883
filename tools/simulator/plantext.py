"""Turns the text form of a plan into its bytes.

    python3 tools/simulator/plantext.py IN.txt OUT.bin

Numbers only have to fit their byte or 4-byte field, so faulty plans can be written too.
"""

from __future__ import annotations

import sys
from typing import Optional

from plans import action_record, head_record, server_record

BYTE = 2 ** 8 - 1
FIELD = 2 ** 32 - 1

# The words of each kind of line; a number stands where the largest number is given.
HEAD_FORM = ["plan", "of", FIELD, "records"]
SERVER_FORM = ["server", BYTE, "cap", FIELD]
ACTION_FORM = ["action", BYTE, "load", FIELD, "limit", FIELD, "period", FIELD]


class TextError(Exception):
    pass


def plan_text_to_bytes(text: str) -> bytes:
    count: Optional[int] = None
    records: list[bytes] = []
    nothing_yet = True
    for line_number, line in enumerate(text.split("\n"), start=1):
        words = line.split()
        if not words or words[0].startswith("#"):
            continue
        head = match(words, HEAD_FORM)
        server = match(words, SERVER_FORM)
        action = match(words, ACTION_FORM)
        if head is not None and nothing_yet:
            count = head[0]
        elif server is not None:
            records.append(server_record(*server))
        elif action is not None:
            records.append(action_record(*action))
        else:
            raise TextError(f"line {line_number}: not understood: {line!r}")
        nothing_yet = False
    if count is None:
        count = 1 + len(records)
    return head_record(count) + b"".join(records)


def match(words: list[str], form: list) -> Optional[list[int]]:
    """The numbers of the line if it has this form, otherwise None."""
    if len(words) != len(form):
        return None
    numbers = []
    for word, wanted in zip(words, form):
        if isinstance(wanted, str):
            if word != wanted:
                return None
            continue
        if not (word.isascii() and word.isdigit() and len(word) <= 10):
            return None
        if int(word) > wanted:
            return None
        numbers.append(int(word))
    return numbers


def main() -> None:
    if len(sys.argv) != 3:
        sys.exit("usage: plantext.py IN.txt OUT.bin")
    with open(sys.argv[1], encoding="utf-8") as file:
        text = file.read()
    try:
        data = plan_text_to_bytes(text)
    except TextError as error:
        sys.exit(f"{sys.argv[1]}: {error}")
    with open(sys.argv[2], "wb") as file:
        file.write(data)


if __name__ == "__main__":
    main()
