"""Plans: bytes to plan or fault, plan to bytes, plan to listing."""

from __future__ import annotations

import struct
from dataclasses import dataclass, field
from typing import Optional, Union

from rules import LARGEST, RECORDS, SERVERS, WHOLE, Fault, Number, plan_fault

HEAD = 0
SERVER = 1
ACTION = 2

RECORD_LENGTH = 16
RECORD = struct.Struct("<BBBBIII")  # kind, number, two zero bytes, three fields


@dataclass(frozen=True)
class Record:
    """One record, taken apart but not yet checked."""

    kind: int
    number: int
    byte2: int
    byte3: int
    field1: int
    field2: int
    field3: int


@dataclass(frozen=True)
class Action:
    number: int
    load: int
    limit: int
    period: int


@dataclass
class Server:
    number: int
    cap: int
    actions: list[Action] = field(default_factory=list)

    def action(self, number: int) -> Optional[Action]:
        for action in self.actions:
            if action.number == number:
                return action
        return None


@dataclass
class Plan:
    servers: list[Server] = field(default_factory=list)

    def server(self, number: int) -> Optional[Server]:
        for server in self.servers:
            if server.number == number:
                return server
        return None

    def record_count(self) -> int:
        return 1 + sum(1 + len(server.actions) for server in self.servers)


# Reading

def read_plan(data: bytes) -> Union[Plan, Fault]:
    if not length_is_good(data):
        return plan_fault(Number.PLAN_LENGTH, 0)
    plan = Plan()
    for place in range(len(data) // RECORD_LENGTH):
        record = record_at(data, place)
        number = fault_number(plan, place, record)
        if number is not None:
            return plan_fault(number, place)
        add_record(plan, record)
    return plan


def record_at(data: bytes, place: int) -> Record:
    return Record(*RECORD.unpack_from(data, place * RECORD_LENGTH))


def length_is_good(data: bytes) -> bool:
    if len(data) < RECORD_LENGTH:
        return False
    count = record_at(data, 0).field1
    if not 1 <= count <= RECORDS:
        return False
    return len(data) == RECORD_LENGTH * count


def fault_number(plan: Plan, place: int, record: Record) -> Optional[Number]:
    """First fault of the record, given the plan of the records before it."""
    if not form_is_good(place, record):
        return Number.RECORD_FORM
    if record.kind == SERVER:
        return server_fault(plan, record)
    if record.kind == ACTION:
        return action_fault(plan, record)
    return None


def form_is_good(place: int, record: Record) -> bool:
    if record.byte2 != 0 or record.byte3 != 0:
        return False
    fields_2_and_3_are_zero = record.field2 == 0 and record.field3 == 0
    if place == 0:
        return record.kind == HEAD and record.number == 0 and fields_2_and_3_are_zero
    if record.kind == SERVER:
        return fields_2_and_3_are_zero
    if record.kind == ACTION:
        return record.number != 0
    return False


def server_fault(plan: Plan, record: Record) -> Optional[Number]:
    if not 1 <= record.number <= SERVERS:
        return Number.SERVER
    if not 1 <= record.field1 <= WHOLE:
        return Number.CAP
    if plan.server(record.number) is not None:
        return Number.TWICE
    return None


def action_fault(plan: Plan, record: Record) -> Optional[Number]:
    load, limit, period = record.field1, record.field2, record.field3
    if not plan.servers:
        return Number.ACTION_FIRST
    if not 1 <= load <= LARGEST:
        return Number.LOAD
    if not 1 <= period <= LARGEST:
        return Number.PERIOD
    if not 1 <= limit <= period:
        return Number.LIMIT
    if plan.servers[-1].action(record.number) is not None:
        return Number.TWICE
    return None


def add_record(plan: Plan, record: Record) -> None:
    if record.kind == SERVER:
        plan.servers.append(Server(record.number, record.field1))
    if record.kind == ACTION:
        action = Action(record.number, record.field1, record.field2, record.field3)
        plan.servers[-1].actions.append(action)


# Writing. These do not check the values: faulty plans can be written too.

def head_record(count: int) -> bytes:
    return RECORD.pack(HEAD, 0, 0, 0, count, 0, 0)


def server_record(number: int, cap: int) -> bytes:
    return RECORD.pack(SERVER, number, 0, 0, cap, 0, 0)


def action_record(number: int, load: int, limit: int, period: int) -> bytes:
    return RECORD.pack(ACTION, number, 0, 0, load, limit, period)


def write_plan(plan: Plan) -> bytes:
    records = [head_record(plan.record_count())]
    for server in plan.servers:
        records.append(server_record(server.number, server.cap))
        for action in server.actions:
            records.append(
                action_record(action.number, action.load, action.limit, action.period))
    return b"".join(records)


# Listing

def listing(plan: Plan) -> str:
    """What the plan holds: a line a record."""
    lines = [f"plan of {plan.record_count()} records"]
    for server in plan.servers:
        lines.append(f"server {server.number} cap {server.cap}")
        for action in server.actions:
            lines.append(f"action {action.number} load {action.load}"
                         f" limit {action.limit} period {action.period}")
    return "".join(line + "\n" for line in lines)
