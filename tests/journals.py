#!/usr/bin/env python3
"""Writes what a journal lister should print for the journal on standard input, by an independent implementation.

The ledger is written here from document 01 alone ("The rollover ledger", "Sides of each line"); nothing of this repository's
code or definitions is used. A journal is binary: records of 32 bytes, and perhaps a few bytes left over.

    tests/journals.py <crates/list_tail/stdin | cmp - crates/list_tail/stdout
    tests/journals.py --sample >journal                    only makes a journal: the one of document 01
    tests/journals.py --stored >journal                    only makes a journal: every kind, every refusal, alone and with others
    tests/journals.py --random 100000 --seed 1 >journal    only makes a journal: rollovers, with damaged records between
    tests/journals.py --tally <output                      counts what came, and names what never came too
"""
import argparse
import collections
import random
import sys
from collections.abc import Callable, Iterable, Iterator
from dataclasses import dataclass, replace
from typing import BinaryIO

RECORD, SECRET, SPARE = 32, 16, 6  # bytes
START, OPEN, LEARN, SWITCH, DROP, CANCEL = range(6)
LATEST = 281_474_976_710_655  # 2^48 - 1
MEMBERS, WAIT = 32, 3601
ZERO = bytes(SECRET)

Write = Callable[[bytes], object]


@dataclass(frozen=True)
class Record:
    kind: int
    member: int  # the count in START
    time: int
    secret: bytes
    spare: bytes = bytes(SPARE)

    @classmethod
    def read(cls, data: bytes) -> "Record":
        return cls(data[0], data[1], int.from_bytes(data[8:16], "big"), data[16:], data[2:8])

    def written(self) -> bytes:
        return bytes([self.kind, self.member]) + self.spare + self.time.to_bytes(8, "big") + self.secret


# The rules of document 01.


@dataclass(frozen=True)
class State:
    """A ledger. None stands for what is not there yet, or no more."""

    count: int = 0  # of members, which is 0 before START
    stages: tuple[int, ...] = ()
    current: bytes | None = None
    new: bytes | None = None  # while a rollover is open
    last: int | None = None  # the time of the last accepted step
    switched: int | None = None  # and of the last accepted SWITCH


STARTS_FROM = {LEARN: 0, SWITCH: 1, DROP: 2}  # a member's stage before its step
BARRED_BY = {SWITCH: {0}, DROP: {0, 1}, CANCEL: {2, 3}}  # stages at which no member may be


def refusals(state: State, record: Record) -> Iterator[int]:
    """The numbers of all refusals that apply, in order."""
    kind, member, time, secret = record.kind, record.member, record.time, record.secret
    started, opened, names_new = state.current is not None, state.new is not None, LEARN <= kind <= CANCEL
    if kind > CANCEL:
        yield 1
    if time > LATEST:
        yield 2
    if state.last is not None and time < state.last:
        yield 3
    if kind == START and started or kind == OPEN and opened:
        yield 4
    if OPEN <= kind <= CANCEL and not started or names_new and not opened:
        yield 5
    if kind == OPEN and secret == state.current or names_new and opened and secret != state.new:
        yield 6
    if kind == START and not 1 <= member <= MEMBERS or kind in STARTS_FROM and member >= state.count:
        yield 7
    if kind in STARTS_FROM and member < state.count and state.stages[member] != STARTS_FROM[kind]:
        yield 8
    if not BARRED_BY.get(kind, set()).isdisjoint(state.stages):
        yield 9
    if kind == DROP and state.switched is not None and time < state.switched + WAIT:
        yield 10


def accepted(state: State, record: Record) -> State:
    """The ledger behind a step that nothing refuses."""
    state = replace(state, last=record.time)
    if record.kind == START:
        return replace(state, count=record.member, stages=(0,) * record.member, current=record.secret)
    if record.kind == OPEN:
        return replace(state, new=record.secret)
    if record.kind == CANCEL:
        return replace(state, stages=(0,) * state.count, new=None)
    stages = list(state.stages)
    stages[record.member] += 1
    if record.kind == SWITCH:
        return replace(state, stages=tuple(stages), switched=record.time)
    if stages.count(3) == state.count:
        return replace(state, stages=(0,) * state.count, current=state.new, new=None)
    return replace(state, stages=tuple(stages))


def step(state: State, record: Record) -> tuple[int, State]:
    """The answer, 0 or a refusal, and the ledger afterwards."""
    answer = next(refusals(state, record), 0)
    return answer, state if answer else accepted(state, record)


def secrets(state: State, member: int) -> tuple[bytes, list[bytes]] | None:
    """The secret that a member makes with, and those that it accepts."""
    if state.current is None or member >= state.count:
        return None
    return [
        (state.current, [state.current]),
        (state.current, [state.current, state.new]),
        (state.new, [state.new, state.current]),
        (state.new, [state.new]),
    ][state.stages[member]]


# Listings.


def line(number: int, record: Record, answer: int, state: State) -> bytes:
    opened, stages = state.new is not None, state.stages
    return b"%d %d %d %d %d %d %d %d\n" % (number, record.kind, answer, opened, *map(stages.count, range(4)))


def listed(journal: BinaryIO, write: Write) -> None:
    state, number = State(), 0
    while len(data := journal.read(RECORD)) == RECORD:
        record, number = Record.read(data), number + 1
        answer, state = step(state, record)
        write(line(number, record, answer, state))
    if data:
        write(b"short %d\n" % len(data))


# What came in a listing.

ANSWERS = {
    START: [0, 2, 3, 4, 7],
    OPEN: [0, 2, 3, 4, 5, 6],
    LEARN: [0, 2, 3, 5, 6, 7, 8],
    SWITCH: [0, 2, 3, 5, 6, 7, 8, 9],
    DROP: [0, 2, 3, 5, 6, 7, 8, 9, 10],
    CANCEL: [0, 2, 3, 5, 6, 9],
}


def names() -> Iterator[str]:
    """All that can come, so that what never came is seen."""
    yield from (f"answer {answer}" for answer in range(11))
    yield from (f"kind {kind}" for kind in ANSWERS)
    yield from ("kind above 5", "opened", "closed", "cancelled", "short")
    for kind, answers in ANSWERS.items():
        yield from (f"kind {kind}, answer {answer}" for answer in answers)
    yield "kind above 5, answer 1"


def named(said: bytes) -> Iterator[str]:
    """What a line counts for."""
    words = said.split()
    if words[0] == b"short":
        yield "short"
        return
    kind, answer, opened = map(int, words[1:4])
    shown = f"kind {kind}" if kind in ANSWERS else "kind above 5"
    yield from (f"answer {answer}", shown, f"{shown}, answer {answer}")
    if answer == 0 and kind in (OPEN, CANCEL):
        yield {OPEN: "opened", CANCEL: "cancelled"}[kind]
    if answer == 0 and kind == DROP and not opened:
        yield "closed"


def tally(listing: Iterable[bytes], write: Write) -> None:
    seen = collections.Counter(dict.fromkeys(names(), 0))
    for said in listing:
        seen.update(named(said))
    for name, count in seen.items():
        write(b"%9d %s\n" % (count, name.encode()))


# The stored journals.

A, B, C = (bytes([byte]) * SECRET for byte in (0x11, 0x22, 0x33))
LAST_OTHER, FIRST_OTHER = A[:-1] + b"\x10", b"\x10" + A[1:]  # A but for one byte
BOTH_OTHER = b"\x10" + LAST_OTHER[1:]  # LAST_OTHER but for its first byte

SAMPLE = [
    Record(START, 2, 1000, A),
    Record(OPEN, 0, 1010, B),
    Record(OPEN, 0, 1011, C),
    Record(LEARN, 0, 1020, B),
    Record(SWITCH, 0, 1030, B),
    Record(LEARN, 1, 1030, B),
    Record(SWITCH, 1, 1040, B),
    Record(SWITCH, 0, 1050, B),
    Record(DROP, 0, 4650, B),
    Record(DROP, 0, 4651, B),
    Record(DROP, 1, 4651, B),
]


class Journal:
    """A journal in the making: it is given up where the rules say other than the one who wrote it."""

    def __init__(self):
        self.state, self.written = State(), b""

    def add(self, kind: int, member: int, time: int, secret: bytes, *refused: int, spare: bytes = bytes(SPARE)) -> None:
        """A record, and all the refusals that apply to it."""
        record = Record(kind, member, time, secret, spare)
        applying = list(refusals(self.state, record))
        if applying != list(refused):
            sys.exit(f"record {len(self.written) // RECORD + 1}, {record}: {applying}, not {refused}")
        self.state, self.written = step(self.state, record)[1], self.written + record.written()

    def all_but(self, member: int, kind: int, time: int, secret: bytes, later: int = 0) -> None:
        """An accepted step for every other member, from the last down."""
        for other in reversed([other for other in range(self.state.count) if other != member]):
            self.add(kind, other, time, secret)
            time += later

    def hold(self, member: int, *held: bytes) -> None:
        """Asks for a member's secrets: what it makes with comes first."""
        got = secrets(self.state, member)
        if got != ((held[0], list(held)) if held else None):
            sys.exit(f"behind record {len(self.written) // RECORD}, member {member}: {got}")


def every_kind(journal: Journal) -> None:
    """Every byte as a kind, seven times: so many that the records behind them lie on both sides of 64 KiB."""
    refused = {START: [7], OPEN: [5], LEARN: [5, 7], SWITCH: [5, 7], DROP: [5, 7], CANCEL: [5]}
    for turn in range(7):
        for kind in range(256):
            count = 33 + 37 * turn if turn else 0  # no count of members that there can be
            journal.add(kind, count, (turn * 256 + kind) * 65537, bytes([255 - kind] * SECRET), *refused.get(kind, [1]))


def before_start(journal: Journal) -> None:
    add = journal.add
    journal.hold(0)
    add(OPEN, 0, 500, A, 5)  # each kind but START
    add(LEARN, 0, 500, A, 5, 7)
    add(SWITCH, 0, 500, A, 5, 7)
    add(DROP, 0, 500, A, 5, 7)
    add(CANCEL, 0, 500, A, 5)
    add(OPEN, 0, 0, ZERO, 5)  # a fresh ledger has no secret of zeros, neither a current one
    add(CANCEL, 0, 0, ZERO, 5)  # nor an open one
    add(OPEN, 0, LATEST + 1, A, 2, 5)
    add(6, 0, 500, A, 1)  # unknown kinds, alone and with all else wrong
    add(255, 255, 2**64 - 1, A, 1, 2, spare=b"\xff" * SPARE)
    add(START, 0, 500, A, 7)  # counts
    add(START, 33, 500, A, 7)
    add(START, 255, 500, A, 7)
    add(START, 32, LATEST + 1, A, 2)  # times
    add(START, 32, 2**64 - 1, A, 2)
    add(START, 0, LATEST + 1, A, 2, 7)
    add(START, 33, LATEST, A, 7)  # the latest time of all, which a refused step does not leave
    add(START, 32, 0, A, spare=b"\xff" * SPARE)  # the most members, the earliest time, spare bytes set


def nothing_open(journal: Journal) -> None:
    """A is current, and all members are at 0."""
    add = journal.add
    journal.hold(0, A)
    journal.hold(31, A)
    journal.hold(32)
    add(START, 32, 10, B, 4)
    add(START, 1, 0, A, 4)
    add(START, 0, 10, B, 4, 7)
    add(START, 33, 10, B, 4, 7)
    add(START, 32, LATEST + 1, B, 2, 4)
    add(LEARN, 0, 10, B, 5)  # the only kinds that 5 alone refuses
    add(CANCEL, 0, 10, B, 5)
    add(CANCEL, 0, 10, ZERO, 5)  # no secret of zeros is open
    add(LEARN, 0, 10, ZERO, 5)
    add(LEARN, 32, 10, B, 5, 7)
    add(SWITCH, 0, 10, B, 5, 8, 9)
    add(DROP, 0, 10, B, 5, 8, 9)
    add(SWITCH, 255, 10, B, 5, 7, 9)
    add(LEARN, 0, LATEST + 1, B, 2, 5)
    add(OPEN, 0, 10, A, 6)  # the current secret
    add(OPEN, 0, LATEST + 1, A, 2, 6)
    add(OPEN, 255, 100, LAST_OTHER, spare=b"\0\0\0\0\0\x01")  # another in its last byte; the member is not looked at


def one_learns(journal: Journal) -> None:
    """The rollover to LAST_OTHER is open, all members are at 0, and the last time is 100."""
    add, new = journal.add, LAST_OTHER
    add(START, 32, 99, A, 3, 4)
    add(OPEN, 0, 99, B, 3, 4)
    add(6, 0, 99, A, 1, 3)
    add(6, 0, LATEST + 1, A, 1, 2)
    add(LEARN, 31, 99, new, 3)
    add(LEARN, 31, 0, new, 3)
    add(LEARN, 31, LATEST + 1, new, 2)
    add(LEARN, 31, 2**63 + 200, new, 2)  # high bytes of a time count
    add(LEARN, 31, 2**56 + 200, new, 2)
    add(LEARN, 31, 100, new, spare=b"\x80" + bytes(5))  # the last time again
    journal.hold(31, A, new)
    journal.hold(30, A)
    add(OPEN, 0, 101, B, 4)
    add(OPEN, 0, 101, new, 4)  # the open secret
    add(OPEN, 0, 101, A, 4, 6)
    add(OPEN, 0, LATEST + 1, B, 2, 4)
    add(LEARN, 0, 101, A, 6)  # other in the last byte, in the first, in both, in all
    add(LEARN, 0, 101, BOTH_OTHER, 6)
    add(LEARN, 0, 101, FIRST_OTHER, 6)
    add(LEARN, 0, 101, ZERO, 6)
    add(LEARN, 0, 99, A, 3, 6)
    add(LEARN, 0, LATEST + 1, A, 2, 6)
    add(LEARN, 32, 101, new, 7)  # the count
    add(LEARN, 63, 101, new, 7)  # a bit 31 if its number were taken modulo 32
    add(LEARN, 64, 101, new, 7)
    add(LEARN, 255, 101, new, 7)
    add(LEARN, 32, 99, new, 3, 7)
    add(LEARN, 32, LATEST + 1, new, 2, 7)
    add(LEARN, 32, 101, A, 6, 7)
    add(LEARN, 31, 101, new, 8)
    add(LEARN, 31, 101, A, 6, 8)
    add(LEARN, 31, 99, new, 3, 8)
    add(LEARN, 31, LATEST + 1, new, 2, 8)
    add(SWITCH, 31, 101, new, 9)  # the others are at 0
    add(SWITCH, 31, 101, A, 6, 9)
    add(SWITCH, 31, 99, new, 3, 9)
    add(SWITCH, 31, LATEST + 1, new, 2, 9)
    add(SWITCH, 32, 101, new, 7, 9)
    add(SWITCH, 0, 101, new, 8, 9)
    add(DROP, 31, 101, new, 8, 9)  # no SWITCH yet from which it would have to wait
    add(DROP, 0, 101, new, 8, 9)


def cancelled(journal: Journal) -> None:
    """One member is at 1."""
    add, new = journal.add, LAST_OTHER
    add(CANCEL, 0, 200, A, 6)
    add(CANCEL, 0, 99, new, 3)
    add(CANCEL, 0, LATEST + 1, new, 2)
    add(CANCEL, 255, 200, new, spare=b"\x01" * SPARE)  # the member is not looked at
    journal.hold(31, A)
    add(CANCEL, 0, 200, new, 5)
    add(LEARN, 31, 200, new, 5)  # the secret is forgotten
    add(OPEN, 0, 200, A, 6)  # and the current one is still A
    add(OPEN, 0, 200, new)  # OPEN again: the same secret
    add(LEARN, 31, 200, new)  # from stage 0
    add(LEARN, 30, 201, new)
    add(CANCEL, 0, 201, new)
    add(OPEN, 0, 202, FIRST_OTHER)  # another than the current one in its first byte
    add(CANCEL, 0, 202, new, 6)  # the rollover before
    add(CANCEL, 0, 202, FIRST_OTHER)  # nobody has learnt
    add(OPEN, 0, 300, B)


def all_learn(journal: Journal) -> None:
    """The rollover to B is open, and all members are at 0."""
    add = journal.add
    add(LEARN, 0, 300, LAST_OTHER, 6)
    journal.all_but(5, LEARN, 300, B, later=1)
    add(SWITCH, 0, 400, B, 9)  # because of member 5 alone
    add(SWITCH, 5, 400, B, 8, 9)
    add(LEARN, 5, 400, B)
    add(LEARN, 5, 400, B, 8)
    add(DROP, 5, 400, B, 8, 9)
    journal.hold(5, A, B)


def all_switch(journal: Journal) -> None:
    """All members are at 1."""
    add = journal.add
    add(SWITCH, 32, 1000, B, 7)
    add(SWITCH, 0, 1000, A, 6)
    add(SWITCH, 0, 1000, B)
    journal.hold(0, B, A)
    journal.hold(1, A, B)
    add(LEARN, 0, 1000, B, 8)  # a member at 2
    add(SWITCH, 0, 1000, B, 8)
    add(CANCEL, 0, 1000, B, 9)
    add(CANCEL, 0, 1000, A, 6, 9)
    add(CANCEL, 0, 999, B, 3, 9)
    add(CANCEL, 0, LATEST + 1, B, 2, 9)
    add(DROP, 0, 1000, B, 9, 10)  # the others are at 1
    add(DROP, 0, 4601, B, 9)
    add(DROP, 1, 1000, B, 8, 9, 10)
    add(DROP, 1, 4601, B, 8, 9)
    add(DROP, 32, 1000, B, 7, 9, 10)
    journal.all_but(0, SWITCH, 1001, B, later=40)  # to 2201


def all_drop(journal: Journal) -> None:
    """All members are at 2, and the last SWITCH was that of member 1, at 2201."""
    add = journal.add
    add(SWITCH, 7, 2300, B, 8)
    add(CANCEL, 0, 2300, B, 9)
    add(DROP, 0, 2201, B, 10)
    add(DROP, 0, 4601, B, 10)  # enough after member 0's own SWITCH
    add(DROP, 0, 5801, B, 10)  # 3,600 after the last
    add(DROP, 0, 5801, A, 6, 10)
    add(DROP, 32, 5801, B, 7, 10)
    add(DROP, 0, 2200, B, 3, 10)
    add(DROP, 0, LATEST + 1, B, 2)
    add(DROP, 31, 5802, B)  # 3,601 after the last
    journal.hold(31, B)
    journal.hold(30, B, A)
    add(LEARN, 31, 5802, B, 8)  # a member at 3
    add(SWITCH, 31, 5802, B, 8)
    add(DROP, 31, 5802, B, 8)
    add(DROP, 31, 5801, B, 3, 8, 10)
    add(CANCEL, 0, 5802, B, 9)
    add(OPEN, 0, 5802, C, 4)
    add(OPEN, 0, 5802, A, 4, 6)  # A is current as long as one has not dropped
    journal.all_but(31, DROP, 5802, B, later=0)  # member 0 closes


def closed(journal: Journal) -> None:
    """B is current, and all members are at 0."""
    add = journal.add
    journal.hold(0, B)
    journal.hold(31, B)
    add(DROP, 0, 5802, B, 5, 8, 9)
    add(LEARN, 0, 5802, B, 5)
    add(LEARN, 0, 5801, B, 3, 5)
    add(DROP, 0, 5801, B, 3, 5, 8, 9, 10)
    add(CANCEL, 0, 5802, B, 5)
    add(START, 32, 5802, C, 4)
    add(OPEN, 0, 5802, B, 6)  # the current secret
    add(OPEN, 0, 5801, B, 3, 6)
    add(OPEN, 0, 5802, A)  # an earlier one
    add(LEARN, 0, 5802, B, 6)
    add(LEARN, 3, 5802, A)
    journal.hold(3, B, A)
    add(CANCEL, 3, 5802, A)


def second_rollover(journal: Journal) -> None:
    """To the secret of zeros, with every member from 0 on, and every step at the earliest time that it can have."""
    add = journal.add
    add(OPEN, 0, 5802, ZERO)
    for kind, time in ((LEARN, 5802), (SWITCH, 5802), (DROP, 9403)):
        for member in range(MEMBERS):
            add(kind, member, time, ZERO)
    journal.hold(31, ZERO)
    add(OPEN, 0, 9403, ZERO, 6)
    add(LEARN, 0, 9403, ZERO, 5)


def end_of_time(journal: Journal) -> None:
    """A rollover whose last SWITCH is so late that it can neither close nor be cancelled."""
    add = journal.add
    add(OPEN, 0, 2**32, C)  # times that do not fit in 32 bits
    add(LEARN, 9, 9404, C, 3)
    add(LEARN, 9, 2**32, C)
    journal.all_but(9, LEARN, 2**40, C)
    journal.all_but(9, SWITCH, LATEST - 1, C)
    add(SWITCH, 9, LATEST + 1, C, 2)
    add(SWITCH, 9, LATEST, C)
    add(DROP, 9, LATEST, C, 10)
    add(DROP, 9, LATEST - 1, C, 3, 10)
    add(DROP, 9, LATEST + 1, C, 2, 10)
    add(DROP, 9, LATEST + 3600, C, 2, 10)
    add(DROP, 9, LATEST + 3601, C, 2)
    add(CANCEL, 0, LATEST, C, 9)
    add(OPEN, 0, LATEST, A, 4)
    add(START, 32, LATEST, A, 4)


def stored() -> bytes:
    journal = Journal()
    for part in (every_kind, before_start, nothing_open, one_learns, cancelled, all_learn, all_switch, all_drop, closed):
        part(journal)
    second_rollover(journal)
    end_of_time(journal)
    return journal.written + Record(CANCEL, 0, LATEST, C).written()[:-1]  # all but the last byte of a record


# Random journals.


def near(secret: bytes, at: int) -> bytes:
    """Another in one bit."""
    return secret[: at // 8] + bytes([secret[at // 8] ^ 1 << at % 8]) + secret[at // 8 + 1 :]


class Maker:
    """Goes along with the ledger: most records are those which bring a rollover on."""

    def __init__(self, seed: int):
        self.dice = random.Random(seed)
        self.state, self.earliest = State(), 0
        self.members = self.dice.choice([1, 2, 3, 8, MEMBERS - 1, MEMBERS, self.dice.randint(1, MEMBERS)])
        self.began = self.dice.choice([0, 1000, 2**32 - 5000, 2**40])
        self.pool = [ZERO, *(self.dice.randbytes(SECRET) for _ in range(4))]

    def chance(self, n: int) -> bool:
        return self.dice.randrange(n) == 0

    def now(self) -> int:
        return max(self.earliest, self.began if self.state.last is None else self.state.last)

    def soon(self) -> int:
        return self.now() + self.dice.choice([0, 0, 1, self.dice.randrange(100)])

    def secret(self) -> bytes:
        """One that was in use or may be, one that is nearly the same, or seldom another."""
        held = [secret for secret in (self.state.current, self.state.new) if secret is not None]
        secret = self.dice.choice(self.pool + held * 2)
        return near(secret, self.dice.choice([0, 127, self.dice.randrange(128)])) if self.chance(4) else secret

    def record(self, kind: int, member: int, time: int, secret: bytes) -> Record:
        return Record(kind, member, time, secret, self.dice.randbytes(SPARE) if self.chance(2) else bytes(SPARE))

    def at_stage(self, stage: int) -> int:
        """A member, if there is one, at a stage."""
        there = [member for member, at in enumerate(self.state.stages) if at == stage]
        return self.dice.choice(there or range(self.state.count))

    def onward(self) -> Record:
        """The step that is due, or a CANCEL that is in order."""
        state, any_byte = self.state, self.dice.randrange(256)
        if state.current is None:
            return self.record(START, self.members, self.soon(), self.secret())
        if state.new is None:
            return self.record(OPEN, any_byte, self.soon(), self.secret())
        stage = min(state.stages)
        if max(state.stages) < 2 and self.chance(4 * state.count):
            return self.record(CANCEL, any_byte, self.soon(), state.new)
        time = self.soon()
        if stage == STARTS_FROM[DROP]:
            time = max(time, state.switched + WAIT)
        return self.record(LEARN + stage, self.at_stage(stage), time, state.new)

    def hasty(self) -> Record:
        """A step that is not due yet, or no more."""
        state = self.state
        if state.new is None:
            return self.record(self.dice.randrange(6), self.dice.randrange(MEMBERS), self.soon(), self.secret())
        kind = self.dice.choice([LEARN, SWITCH, DROP, DROP if max(state.stages) < 2 else CANCEL])
        return self.record(kind, self.at_stage(STARTS_FROM.get(kind, 0)), self.soon(), state.new)

    def waits(self) -> bool:
        """Whether the first DROP is all that can come, and not yet."""
        return set(self.state.stages) == {2} and self.now() < self.state.switched + WAIT

    def early_drop(self) -> Record:
        last = self.state.switched + WAIT - 1
        time = self.dice.choice([last, last, self.dice.randint(self.now(), last)])
        return self.record(DROP, self.at_stage(2), time, self.state.new)

    def before_start(self) -> Record:
        """A record that is refused whatever its kind."""
        kind, past = self.dice.choice([START, *range(6), *range(6, 256, 50)]), self.dice.randrange(MEMBERS + 1, 256)
        count = self.dice.choice([0, MEMBERS + 1, past])
        time = self.other_time() if self.chance(4) else self.soon()
        return self.record(kind, count if kind == START else self.dice.randrange(256), time, self.secret())

    def other_kind(self) -> int:
        return self.dice.choice([*range(6), *range(6), 6, 255, self.dice.randrange(256)])

    def other_member(self) -> int:
        count = self.state.count
        return self.dice.choice([0, count, count, 31, 32, 33, 255, self.dice.randrange(32), self.dice.randrange(256)])

    def other_time(self) -> int:
        """Never so far ahead that the journal would be at its end."""
        now, past = self.now(), LATEST + 1
        before = [now - 1, now - 1, now - self.dice.randrange(5000), 0]
        beyond = [past, past + now, 2**64 - 1, self.dice.randrange(past, 2**64)]
        return max(0, self.dice.choice([now, *before, *beyond]))

    def damaged(self, record: Record) -> Record:
        fields = {"kind": self.other_kind, "member": self.other_member, "time": self.other_time, "secret": self.secret}
        for name in self.dice.sample(list(fields), self.dice.choice([1, 1, 1, 2, 2, 3, 4])):
            record = replace(record, **{name: fields[name]()})
        return record

    def drawn(self) -> Record:
        if self.state.current is None and not self.chance(30):
            return self.before_start()
        if self.waits() and self.chance(2):
            return self.early_drop()
        which = self.dice.randrange(20)
        if which < 11:
            return self.onward()
        if which < 14:
            return self.hasty()
        return self.damaged(self.onward() if self.chance(2) else self.hasty())

    def next(self) -> Record:
        record = self.drawn()
        self.state = step(self.state, record)[1]
        return record

    def write(self, count: int, write: Write) -> None:
        for left in range(count, 0, -1):
            if left == 40:  # the last ones come to the end of time
                self.earliest = LATEST - self.dice.choice([self.dice.randrange(8000), self.dice.randrange(3)])
            write(self.next().written())
        write(self.dice.randbytes(self.dice.randrange(RECORD)))


def main() -> None:
    words = argparse.ArgumentParser(description=__doc__, formatter_class=argparse.RawDescriptionHelpFormatter)
    words.add_argument("--sample", action="store_true")
    words.add_argument("--stored", action="store_true")
    words.add_argument("--random", type=int)
    words.add_argument("--seed", type=int, default=1)
    words.add_argument("--tally", action="store_true")
    asked, write = words.parse_args(), sys.stdout.buffer.write
    if asked.sample:
        write(b"".join(map(Record.written, SAMPLE)))
    elif asked.stored:
        write(stored())
    elif asked.random is not None:
        Maker(asked.seed).write(asked.random, write)
    elif asked.tally:
        tally(sys.stdin.buffer, write)
    else:
        listed(sys.stdin.buffer, write)


if __name__ == "__main__":
    main()
