"""Plans for tests: planted ones, whose first fault is known, and random ones."""

from __future__ import annotations

from dataclasses import dataclass
from random import Random
from typing import Optional

from plans import (RECORD_LENGTH, Action, Plan, Server, action_record, head_record,
                   server_record, write_plan)
from rules import LARGEST, RECORDS, SERVERS, WHOLE, Fault, plan_fault

MAX_BYTE = 2 ** 8 - 1
MAX_FIELD = 2 ** 32 - 1


@dataclass(frozen=True)
class PlanCase:
    name: str
    data: bytes
    fault: Optional[Fault]  # None if the plan is good


def plan_cases(rng: Random, count: int) -> list[bytes]:
    """The planted plans, then random ones up to the count."""
    cases = [case.data for case in planted_plans()]
    while len(cases) < count:
        cases.append(random_plan_bytes(rng))
    return cases[:count]


# Parts of planted plans

# A small good plan, a list item a record. Server 9 and action 9 are left free.
GOOD = [
    server_record(1, 500_000),
    action_record(1, 3, 2, 4),
    action_record(2, 98, 2, 20),
    server_record(2, 250_000),
    action_record(1, 1, 1, 4),
]
FREE = 9


def build(records: list[bytes], count: Optional[int] = None) -> bytes:
    if count is None:
        count = 1 + len(records)
    return head_record(count) + b"".join(records)


def with_byte(data: bytes, position: int, value: int) -> bytes:
    return data[:position] + bytes([value]) + data[position + 1:]


def good_actions(count: int) -> list[bytes]:
    return [action_record(number, number, number, 2 * number)
            for number in range(1, count + 1)]


def few_servers_full() -> list[bytes]:
    """1,023 records: three servers with 255 actions, one with 254."""
    records = []
    for number, actions in [(1, 255), (2, 255), (3, 255), (4, 254)]:
        records.append(server_record(number, 250_000))
        records.extend(good_actions(actions))
    return records


def many_servers_full() -> list[bytes]:
    """1,023 records: 64 servers, 63 of them with 15 actions and one with 14."""
    records = []
    for number in range(SERVERS, 0, -1):
        records.append(server_record(number, 15_625))
        records.extend(good_actions(14 if number == 1 else 15))
    return records


# Planted plans

def planted_plans() -> list[PlanCase]:
    cases = good_plans()
    cases += length_faults()
    cases += head_faults()
    cases += server_faults()
    cases += action_faults()
    cases += twice_faults()
    cases += order_faults()
    cases += full_plan_faults()
    return cases


def good_plans() -> list[PlanCase]:
    all_servers = [server_record(number, WHOLE) for number in range(1, SERVERS + 1)]
    smallest = [server_record(1, 1), action_record(1, 1, 1, 1)]
    largest = [server_record(SERVERS, WHOLE),
               action_record(MAX_BYTE, LARGEST, LARGEST, LARGEST)]
    any_order = [
        server_record(SERVERS, 1), action_record(MAX_BYTE, 1, 1, LARGEST),
        action_record(1, LARGEST, 1, 1), server_record(1, WHOLE),
        action_record(MAX_BYTE, 7, 5, 5), action_record(SERVERS + 1, 7, 5, 6),
        server_record(33, WHOLE), server_record(32, 2),
    ]
    plans = [
        ("head only", []),
        ("one server", [server_record(1, WHOLE)]),
        ("small", GOOD),
        ("smallest values", smallest),
        ("largest values", largest),
        ("servers and actions in any order", any_order),
        ("all 64 servers without actions", all_servers),
        ("a server with 255 actions", [server_record(7, 1)] + good_actions(255)),
        ("1,024 records, few servers", few_servers_full()),
        ("1,024 records, all servers", many_servers_full()),
    ]
    return [PlanCase(name, build(records), None) for name, records in plans]


def length_faults() -> list[PlanCase]:
    good = build(GOOD)
    full = build(few_servers_full())
    plans = [
        ("no bytes", b""),
        ("one byte", b"\0"),
        ("15 bytes", head_record(1)[:15]),
        ("15 bytes and count 0", head_record(0)[:15]),
        ("17 bytes", head_record(1) + b"\0"),
        ("count 0", head_record(0)),
        ("count 2, one record", head_record(2)),
        ("count 1, two records", head_record(1) + server_record(1, 1)),
        ("count one too low", build(GOOD, len(GOOD))),
        ("count one too high", build(GOOD, len(GOOD) + 2)),
        ("last byte missing", good[:-1]),
        ("one byte more", good + b"\0"),
        ("last record missing", good[:-RECORD_LENGTH]),
        ("one record more", good + server_record(FREE, 1)),
        ("count as large as a field can hold", build(GOOD, MAX_FIELD)),
        ("count with the bytes the wrong way round", head_record(2 ** 24)),
        ("count right in its low byte only", head_record(2 ** 8 + 1)),
        ("count right in its low half only", head_record(2 ** 16 + 1)),
        ("16 * count overflows 32 bits to 16", head_record(2 ** 28 + 1)),
        ("16 * count overflows 32 bits to 32",
         head_record(2 ** 28 + 2) + server_record(1, 1)),
        ("wrong length comes before a wrong head",
         with_byte(build(GOOD, len(GOOD)), 0, 3)),
        ("wrong length comes before a wrong record",
         build(GOOD + [server_record(65, 1)], len(GOOD))),
        ("1,024 records, last byte missing", full[:-1]),
        ("1,025 records", build(few_servers_full() + [server_record(5, 1)])),
    ]
    return [PlanCase(name, data, plan_fault(7, 0)) for name, data in plans]


def head_faults() -> list[PlanCase]:
    cases = []
    for position, value in [(0, 1), (0, 2), (0, 3), (0, MAX_BYTE), (1, 1), (1, MAX_BYTE),
                            (2, 1), (3, 128)] + [(place, 1) for place in range(8, 16)]:
        # The head alone, and the head before records that have a fault too.
        alone = with_byte(build([]), position, value)
        before = with_byte(build([server_record(0, 0)]), position, value)
        data = alone if position % 2 == 0 else before
        cases.append(PlanCase(f"head byte {position} is {value}", data, plan_fault(8, 0)))
    return cases


def first_and_last(name: str, number: int, bad: bytes, before: list[bytes]) -> list[PlanCase]:
    """The bad record at its first possible place, after `before`, and at the last."""
    first_place = 1 + len(before)
    first = build(before + [bad] + GOOD)
    last_place = 1 + len(GOOD)
    last = build(GOOD + [bad])
    return [
        PlanCase(f"{name}, at first", first, plan_fault(number, first_place)),
        PlanCase(f"{name}, at last", last, plan_fault(number, last_place)),
    ]


def server_faults() -> list[PlanCase]:
    good = server_record(FREE, 1_000)
    cases = []
    for kind in [0, 3, MAX_BYTE]:
        cases += first_and_last(f"kind {kind}", 8, with_byte(good, 0, kind), [])
    for position in [2, 3] + list(range(8, 16)):
        bad = with_byte(good, position, 1 if position % 2 == 0 else 128)
        cases += first_and_last(f"server with byte {position} not zero", 8, bad, [])
    for number in [0, SERVERS + 1, MAX_BYTE]:
        cases += first_and_last(f"server number {number}", 1, server_record(number, 1), [])
    for cap in [0, WHOLE + 1, MAX_FIELD]:
        cases += first_and_last(f"cap {cap}", 2, server_record(FREE, cap), [])
    return cases


def action_faults() -> list[PlanCase]:
    good = action_record(FREE, 3, 2, 4)
    # The form of a record is checked before a server is asked for.
    cases = first_and_last("action number 0", 8, with_byte(good, 1, 0), [])
    cases += first_and_last("action with byte 2 not zero", 8, with_byte(good, 2, 1), [])
    cases += first_and_last("action with byte 3 not zero", 8, with_byte(good, 3, 255), [])

    server = [server_record(FREE, 1_000)]
    for load in [0, LARGEST + 1, MAX_FIELD]:
        cases += first_and_last(f"load {load}", 3, action_record(FREE, load, 1, 1), server)
    for period in [0, LARGEST + 1, MAX_FIELD]:
        cases += first_and_last(f"period {period}", 4,
                                action_record(FREE, 1, 1, period), server)
    for limit, period in [(0, 1), (0, LARGEST), (2, 1), (5, 4), (LARGEST + 1, LARGEST),
                          (MAX_FIELD, 1)]:
        cases += first_and_last(f"limit {limit} in period {period}", 5,
                                action_record(FREE, 1, limit, period), server)

    # Only record 1 can be an action before any server.
    cases.append(PlanCase("action first, alone", build([good]), plan_fault(9, 1)))
    cases.append(PlanCase("action first, then servers", build([good] + GOOD),
                          plan_fault(9, 1)))
    return cases


def twice_faults() -> list[PlanCase]:
    one = server_record(1, 10)
    two = server_record(2, 10)
    action = action_record(5, 1, 1, 2)
    plans = [
        ("server twice, at first", [one, one], 2),
        ("server twice, at first, then more", [one, server_record(1, 20)] + GOOD[1:], 2),
        ("server twice, at last", GOOD + [one], 6),
        ("server twice, actions and a server between", [one, action, two, action, one], 5),
        ("action twice, at first", [one, action, action], 3),
        ("action twice, at first, then more",
         [one, action, action_record(5, 7, 3, 9)] + GOOD[3:], 3),
        ("action twice, at last", GOOD + [GOOD[-1]], 6),
        ("action twice in the second server", [one, action, two, action, action], 5),
    ]
    return [PlanCase(name, build(records), plan_fault(11, place))
            for name, records, place in plans]


def order_faults() -> list[PlanCase]:
    """Records with two faults, and plans with two faulty records."""
    one = server_record(1, 10)
    action = action_record(5, 1, 1, 2)
    bad_kind = with_byte(one, 0, 7)
    plans = [
        ("8 before 1", [with_byte(server_record(65, 1), 2, 1)], 8, 1),
        ("8 before 2", [with_byte(server_record(1, 0), 12, 1)], 8, 1),
        ("8 before 11", [one, with_byte(one, 3, 1)], 8, 2),
        ("8 before 9", [with_byte(action, 2, 1)], 8, 1),
        ("8 before 3", [one, action_record(0, 0, 1, 1)], 8, 2),
        ("1 before 2", [server_record(0, 0)], 1, 1),
        ("2 before 11", [one, server_record(1, 0)], 2, 2),
        ("9 before 3", [action_record(1, 0, 1, 1)], 9, 1),
        ("9 before 4", [action_record(1, 1, 1, 0)], 9, 1),
        ("9 before 5", [action_record(1, 1, 2, 1)], 9, 1),
        ("3 before 4", [one, action_record(1, 0, 1, 0)], 3, 2),
        ("3 before 5", [one, action_record(1, 0, 2, 1)], 3, 2),
        ("4 before 5", [one, action_record(1, 1, 0, 0)], 4, 2),
        ("4 before 11", [one, action, action_record(5, 1, 1, 0)], 4, 3),
        ("5 before 11", [one, action, action_record(5, 1, 3, 2)], 5, 3),
        ("earlier record first: 2, then 8", [server_record(1, 0), bad_kind], 2, 1),
        ("earlier record first: 11, then 8", [one, one, bad_kind], 11, 2),
        ("earlier record first: 9, then 8", [action, bad_kind], 9, 1),
        ("earlier record first: 5, then 3",
         [one, action_record(1, 1, 0, 1), action_record(2, 0, 1, 1)], 5, 2),
    ]
    return [PlanCase(name, build(records), plan_fault(number, place))
            for name, records, number, place in plans]


def full_plan_faults() -> list[PlanCase]:
    """Faults in record 1,023, the last that a plan can have."""
    last = RECORDS - 1
    bad_records = [
        (8, with_byte(action_record(255, 1, 1, 1), 3, 1)),
        (2, server_record(5, 0)),
        (5, action_record(255, 1, 3, 2)),
        (11, server_record(1, 1)),
        (11, action_record(1, 1, 1, 1)),
    ]
    start = few_servers_full()[:-1]
    return [PlanCase(f"fault {number} in record 1,023", build(start + [bad]),
                     plan_fault(number, last))
            for number, bad in bad_records]


# Random plans

def random_value(rng: Random, most: int) -> int:
    """A number 1..most: an end of the range, a small number, or any."""
    kind = rng.randrange(4)
    if kind == 0:
        return rng.choice([1, most])
    if kind == 1:
        return rng.randint(1, min(most, 20))
    return rng.randint(1, most)


def random_plan(rng: Random, most_servers: int = 6, most_actions: int = 5) -> Plan:
    """A good plan."""
    plan = Plan()
    for number in rng.sample(range(1, SERVERS + 1), rng.randint(0, most_servers)):
        server = Server(number, random_value(rng, WHOLE))
        for action_number in rng.sample(range(1, 256), rng.randint(0, most_actions)):
            period = random_value(rng, LARGEST)
            limit = rng.choice([period, random_value(rng, period)])
            load = random_value(rng, LARGEST)
            server.actions.append(Action(action_number, load, limit, period))
        plan.servers.append(server)
    return plan


def random_plan_bytes(rng: Random) -> bytes:
    kind = rng.randrange(20)
    if kind < 4:
        return write_plan(random_plan(rng))
    if kind == 4:
        return write_plan(random_plan(rng, most_servers=SERVERS, most_actions=2))
    if kind < 17:
        return damaged_plan(rng, write_plan(random_plan(rng)))
    if kind == 17:
        return rng.randbytes(rng.randint(0, 100))
    return noisy_records(rng)


def damaged_plan(rng: Random, data: bytes) -> bytes:
    damages = [flip_bits, change_byte, cut, extend, swap_records, change_count,
               repeat_record, drop_record, edge_field, edge_field]
    for _ in range(rng.choice([1, 1, 1, 2, 3])):
        data = rng.choice(damages)(rng, data)
    return data


def flip_bits(rng: Random, data: bytes) -> bytes:
    if not data:
        return data
    position = rng.randrange(len(data))
    return with_byte(data, position, data[position] ^ (1 << rng.randrange(8)))


def change_byte(rng: Random, data: bytes) -> bytes:
    if not data:
        return data
    return with_byte(data, rng.randrange(len(data)), rng.randrange(256))


def cut(rng: Random, data: bytes) -> bytes:
    return data[:rng.randint(0, len(data))]


def extend(rng: Random, data: bytes) -> bytes:
    return data + rng.randbytes(rng.choice([1, 15, 16, 17]))


def records_of(data: bytes) -> list[bytes]:
    return [data[start:start + RECORD_LENGTH]
            for start in range(0, len(data), RECORD_LENGTH)]


def swap_records(rng: Random, data: bytes) -> bytes:
    """Swaps two records, mostly not the head."""
    records = records_of(data)
    if len(records) < 2:
        return data
    least = 0 if len(records) < 3 or rng.randrange(5) == 0 else 1
    first, second = rng.sample(range(least, len(records)), 2)
    records[first], records[second] = records[second], records[first]
    return b"".join(records)


def change_count(rng: Random, data: bytes) -> bytes:
    count = rng.choice([0, 1, 2, rng.randint(0, RECORDS), RECORDS, RECORDS + 1, MAX_FIELD])
    return data[:4] + count.to_bytes(4, "little") + data[8:]


def repeat_record(rng: Random, data: bytes) -> bytes:
    """Puts a copy of a record somewhere after it, with the count to match."""
    records = records_of(data)[1:]
    if not records:
        return data
    source = rng.randrange(len(records))
    records.insert(rng.randint(source + 1, len(records)), records[source])
    return build(records)


def drop_record(rng: Random, data: bytes) -> bytes:
    """Takes out a record, with the count to match."""
    records = records_of(data)[1:]
    if not records:
        return data
    del records[rng.randrange(len(records))]
    return build(records)


def edge_field(rng: Random, data: bytes) -> bytes:
    """Puts a value at the edge of a range into a number or field past the head."""
    records = records_of(data)
    if len(records) < 2:
        return data
    start = RECORD_LENGTH * rng.randrange(1, len(records))
    if rng.randrange(4) == 0:
        return with_byte(data, start + 1, rng.choice([0, 1, SERVERS, SERVERS + 1, MAX_BYTE]))
    position = start + rng.choice([4, 8, 12])
    value = rng.choice([0, 1, LARGEST, LARGEST + 1, MAX_FIELD])
    return data[:position] + value.to_bytes(4, "little") + data[position + 4:]


def noisy_records(rng: Random) -> bytes:
    """Random bytes behind a good head, with small numbers more often than not."""
    records = []
    for _ in range(rng.randint(1, 8)):
        record = rng.randbytes(RECORD_LENGTH)
        record = with_byte(record, 0, rng.choice([1, 1, 2, 2, 0, 3]))
        for position in range(2, RECORD_LENGTH):
            if rng.randrange(3) > 0 or position in (2, 3):
                record = with_byte(record, position, 0)
        records.append(record)
    return build(records)
