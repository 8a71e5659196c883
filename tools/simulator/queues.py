"""Operations on a queue for tests, and what is expected of them.

    python3 tools/simulator/queues.py make [--seed S] [--count N] OUT.bin
    python3 tools/simulator/queues.py expected IN.bin

What is expected is the same for every make of queue; it is printed once for each.

An operation is 10 bytes: its kind (0 put, 1 take, 2 least, 3 holds), a server number and
an instant of 8 bytes, the low byte first. What a kind does not use is 0.
"""

from __future__ import annotations

import argparse
from dataclasses import dataclass, field
from random import Random
from typing import Iterator, Optional

from rules import HORIZON, SERVERS, Number

PUT, TAKE, LEAST, HOLDS = range(4)
SIZE = 10
LARGEST_INSTANT = 2**64 - 1

Operation = tuple[int, int, int]  # kind, server, instant


def write_operations(operations: list[Operation]) -> bytes:
    return b"".join(bytes([kind, server]) + instant.to_bytes(8, "little")
                    for kind, server, instant in operations)


def read_operations(data: bytes) -> Iterator[Operation]:
    for position in range(0, len(data) - SIZE + 1, SIZE):
        item = data[position:position + SIZE]
        yield item[0], item[1], int.from_bytes(item[2:], "little")


# What a queue answers

MAKES = ["row", "heap queue", "window over row", "window over heap queue", "window over window over row"]


@dataclass
class Queue:
    """Entries, at most one for each server: the instant of each."""

    instants: dict[int, int] = field(default_factory=dict)

    def put(self, server: int, instant: int) -> int:
        """The number of the refusal, 0 if there is none."""
        if not 1 <= server <= SERVERS:
            return Number.SERVER
        if instant > HORIZON:
            return Number.QUEUE_INSTANT
        if server in self.instants:
            return Number.IN_QUEUE
        self.instants[server] = instant
        return 0

    def least(self) -> Optional[tuple[int, int]]:
        """The first entry, its instant before its server."""
        return min(((t, s) for s, t in self.instants.items()), default=None)

    def take(self) -> Optional[tuple[int, int]]:
        first = self.least()
        if first is not None:
            del self.instants[first[1]]
        return first


def answer(queue: Queue, operation: Operation) -> str:
    kind, server, instant = operation
    if kind == PUT:
        return f"put {server} {instant} {int(queue.put(server, instant))}"
    if kind == TAKE:
        return "take " + entry_text(queue.take())
    if kind == LEAST:
        return "least " + entry_text(queue.least())
    return f"holds {server} {int(server in queue.instants)}"


def entry_text(entry: Optional[tuple[int, int]]) -> str:
    return "none" if entry is None else f"{entry[1]} {entry[0]}"


# Operations by seed

FAR_SERVERS = [0, 64, 65, 128, 255]
STEPS = [0, 0, 1, 1, 2, 7, 31, 62, 63, 64, 65, 127, 128, 1000]
HIGH_INSTANTS = [HORIZON - 65, HORIZON - 64, HORIZON - 63, HORIZON - 1, HORIZON, HORIZON + 1,
                 HORIZON + 64, 2**63, LARGEST_INSTANT - 64, LARGEST_INSTANT]


def operations_by_seed(rng: Random, count: int) -> list[Operation]:
    """The planted operations, then random stretches, now and then up to an empty queue."""
    operations = planted_operations()
    while len(operations) < count:
        operations += stretch(rng)
        if rng.random() < 0.4:
            operations += emptying(operations)
    return operations[:count]


def emptying(operations: list[Operation]) -> list[Operation]:
    """As many takes as there are entries then, and one more."""
    queue = Queue()
    for operation in operations:
        answer(queue, operation)
    return [(TAKE, 0, 0)] * (len(queue.instants) + 1)


def planted_operations() -> list[Operation]:
    """A round of puts for each way in which they can lie, each up to an empty queue."""
    rounds = [
        # around the ends of the 64 instants that begin with the first put
        [(9, 1000), (8, 1063), (7, 1064), (6, 999), (5, 1065), (4, 1000), (3, 1062), (2, 936)],
        # one instant, servers in no order
        [(server * 29 % 64 + 1, 500) for server in range(64)],
        # every server, over more than two windows
        [(server, 2000 + server * 37 % 150) for server in range(1, 65)],
        # up to the horizon and past it
        [(1, HORIZON), (2, HORIZON - 63), (3, HORIZON - 64), (4, HORIZON + 1), (64, HORIZON)],
        # numbers that are no servers, instants that are refused too, servers put twice
        [(0, 1), (65, 1), (255, LARGEST_INSTANT), (1, LARGEST_INSTANT), (1, 5), (1, 5), (1, 900),
         (1, HORIZON + 1), (65, 900)],
    ]
    operations: list[Operation] = []
    for puts in rounds:
        for server, instant in puts:
            operations += [(PUT, server, instant), (LEAST, 0, 0), (HOLDS, server, 0)]
        operations += emptying(operations)
    return operations


def stretch(rng: Random) -> list[Operation]:
    """Operations around one instant, in shares that fill the queue or keep it small."""
    middle = rng.choice([0, 63, 64, rng.randrange(10_000), rng.randrange(HORIZON), HORIZON - 70])
    servers = rng.choice([4, 16, 64])
    puts, takes = rng.choice([(8, 1), (4, 3), (3, 3)])
    operations: list[Operation] = []
    for _ in range(rng.randrange(20, 160)):
        kind = rng.choices([PUT, TAKE, LEAST, HOLDS], [puts, takes, 1, 2])[0]
        if kind in (TAKE, LEAST):
            operations.append((kind, 0, 0))
        else:
            instant = random_instant(rng, middle) if kind == PUT else 0
            operations.append((kind, random_server(rng, servers), instant))
    return operations


def random_server(rng: Random, servers: int) -> int:
    return rng.choice(FAR_SERVERS) if rng.random() < 0.08 else rng.randint(1, servers)


def random_instant(rng: Random, middle: int) -> int:
    if rng.random() < 0.05:
        return rng.choice(HIGH_INSTANTS)
    return max(0, middle + rng.choice([-1, 1, 1]) * rng.choice(STEPS))


def main() -> None:
    parser = argparse.ArgumentParser(description=__doc__.splitlines()[0])
    commands = parser.add_subparsers(dest="command", required=True)
    make = commands.add_parser("make")
    make.add_argument("--seed", type=int, default=1)
    make.add_argument("--count", type=int, default=3000)
    make.add_argument("out")
    expected = commands.add_parser("expected")
    expected.add_argument("file")
    arguments = parser.parse_args()
    if arguments.command == "make":
        with open(arguments.out, "wb") as out:
            out.write(write_operations(operations_by_seed(Random(arguments.seed), arguments.count)))
    else:
        with open(arguments.file, "rb") as file:
            operations = list(read_operations(file.read()))
        for make_name in MAKES:
            print(f"make {make_name}")
            queue = Queue()
            for operation in operations:
                print(answer(queue, operation))


if __name__ == "__main__":
    main()
