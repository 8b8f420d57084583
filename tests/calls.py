#!/usr/bin/env python3
"""Writes what the program `answer_calls` should print for the lines on standard input, by an independent implementation.

The ledger is that of journals.py; a cookie is made and judged by expected.py. What joins them is written here from document 01
alone ("Demand 3's calls"), as they are; nothing of this repository's code or definitions is used.

    tests/calls.py <crates/answer_calls/stdin | cmp - crates/answer_calls/stdout
    tests/calls.py --stored >lines                      only makes lines: an exercise for the class, then each answer
    tests/calls.py --random 100000 --seed 1 >lines      only makes lines: rollovers of a fleet, cookies made and checked meanwhile
    tests/calls.py --tally <output                      counts the answers of each kind, those that never came too
"""
import argparse
import collections
import random
import sys
from collections.abc import Callable, Iterable, Iterator
from dataclasses import dataclass, replace

import expected
import journals
from expected import CLIENT, HEAD, LARGEST, LONGEST, OPTION, SERVER_HEAD, SHORT, BadLine, fixed, part, shown
from journals import CANCEL, DROP, LATEST, LEARN, OPEN, RECORD, SECRET, START, SWITCH, WAIT, ZERO, Record, State

MODES = ["disabled", "enabled", "enforced"]
KINDS = {START: "START", OPEN: "OPEN", LEARN: "LEARN", SWITCH: "SWITCH", DROP: "DROP", CANCEL: "CANCEL"}
BYTE, TIME = 2**8 - 1, 2**64 - 1  # the greatest numbers of a line
SIPHASH = expected.SipHash()

Write = Callable[[bytes], object]


@dataclass(frozen=True)
class Making:
    member: int
    time: int
    client: bytes
    address: bytes
    output: bytes

    def words(self) -> list[str]:
        return ["making", str(self.member), str(self.time), *map(shown, (self.client, self.address, self.output))]


@dataclass(frozen=True)
class Checking:
    member: int
    mode: str
    time: int
    address: bytes
    body: bytes

    def words(self) -> list[str]:
        return ["checking", str(self.member), self.mode, str(self.time), shown(self.address), shown(self.body)]


def step_words(record: Record) -> list[str]:
    """The record in fields, if its spare bytes are 0."""
    assert not any(record.spare)
    return ["step", str(record.kind), str(record.member), str(record.time), record.secret.hex()]


def record_words(record: Record) -> list[str]:
    return ["record", record.written().hex()]


# The rules of document 01. It leaves open what is told where a refusal has a number and there are no secrets either: the number.


def clock(time: int) -> bytes:
    """A cookie's clock is the ledger's time modulo 2^32."""
    return (time % 2**32).to_bytes(4, "big")


def make(state: State, call: Making) -> tuple[str, bytes]:
    """What is said of a making, and the output afterwards."""
    held = journals.secrets(state, call.member)
    generating = held[0] if held else ZERO  # no refusal depends on it
    refusal, output = expected.write_fresh(SIPHASH, call.output, generating, clock(call.time), call.address, call.client)
    if refusal:
        return f"refused {refusal}", call.output
    return ("made", output) if held else ("nosecrets", call.output)


def check(state: State, call: Checking) -> str:
    held = journals.secrets(state, call.member)
    generating, accepted = held or (ZERO, [ZERO])
    other = accepted[1] if len(accepted) == 2 else b""
    now = int.from_bytes(clock(call.time), "big")
    found, _ = expected.verdict(SIPHASH, call.mode, generating, other, now, call.address, call.body)
    if isinstance(found, int):
        return f"refused {found}"
    return found if held else "nosecrets"


# Lines.


def number(field: bytes, most: int) -> int:
    if not field or not set(field) <= set(b"0123456789"):
        raise BadLine
    digits = field.lstrip(b"0")
    if len(digits) > len(str(most)) or int(digits or b"0") > most:
        raise BadLine
    return int(digits or b"0")


def chosen(mode: bytes) -> str:
    if mode not in map(str.encode, MODES):
        raise BadLine
    return mode.decode()


class Run:
    """The lines of one run: the ledger starts fresh and is kept."""

    def __init__(self):
        self.state = State()
        self.verbs = {
            b"step": (self.step, 4),
            b"record": (self.record, 1),
            b"making": (self.making, 5),
            b"checking": (self.checking, 5),
        }

    def offer(self, record: Record) -> str:
        answer, self.state = journals.step(self.state, record)
        return f"refused {answer}" if answer else "accepted"

    def step(self, kind: bytes, member: bytes, time: bytes, secret: bytes) -> str:
        return self.offer(Record(number(kind, BYTE), number(member, BYTE), number(time, TIME), fixed(secret, SECRET)))

    def record(self, data: bytes) -> str:
        return self.offer(Record.read(fixed(data, RECORD)))

    def making(self, member: bytes, time: bytes, client: bytes, address: bytes, output: bytes) -> str:
        asked = number(member, BYTE), number(time, TIME), fixed(client, CLIENT), part(address, SHORT), part(output)
        said, after = make(self.state, Making(*asked))
        return f"{said} {shown(after)}"

    def checking(self, member: bytes, mode: bytes, time: bytes, address: bytes, body: bytes) -> str:
        asked = number(member, BYTE), chosen(mode), number(time, TIME), part(address, SHORT), part(body)
        return check(self.state, Checking(*asked))

    def said(self, line: bytes) -> str:
        """What follows a line."""
        verb, *fields = line.split(b" ")
        act, count = self.verbs.get(verb, (None, None))
        if len(fields) != count:
            raise BadLine
        return act(*fields)

    def answered(self, line: bytes) -> bytes:
        return line + b" " + self.said(line).encode()


# What came of the lines.


def names() -> Iterator[str]:
    """All that can come, so that what never came is seen."""
    yield from ("bad line", "step", "record", "a rollover closed", "a rollover cancelled")
    for kind, answers in journals.ANSWERS.items():
        yield from (f"{KINDS[kind]} {f'refused {answer}' if answer else 'accepted'}" for answer in answers)
    yield "no kind refused 1"
    yield from (f"making {said}" for said in ("made", "nosecrets", "refused 1", "refused 2"))
    yield from (f"made at stage {stage}" for stage in range(4))
    good = [f"good{age} {which}" for age in ("", " 3600") for which in ("generating", "other")]
    judged = ["refused 10", "client-only", "bad method", "bad hash", "bad time", *good]
    for mode in MODES:
        said = ["refused 2", "nosecrets", *(["ignored"] if mode == "disabled" else judged)]
        yield from (f"checking {mode} {word}" for word in said)
    yield from (f"good generating at stage {stage}" for stage in range(4))
    yield from (f"good other at stage {stage}" for stage in (1, 2))


class Tally:
    """Counts what the lines of a printed run count for. The ledger goes along, for the members' stages."""

    def __init__(self):
        self.state = State()

    def offered(self, verb: str, words: list[str]) -> Iterator[str]:
        data = bytes.fromhex(words[0]) if verb == "record" else b""
        record = Record.read(data) if data else Record(*map(int, words[:3]), bytes.fromhex(words[3]))
        yield from (verb, " ".join([KINDS.get(record.kind, "no kind"), *words[1 if data else 4 :]]))
        after = journals.step(self.state, record)[1]
        if self.state.new is not None and after.new is None:
            yield "a rollover closed" if record.kind == DROP else "a rollover cancelled"
        self.state = after

    def made(self, words: list[str]) -> Iterator[str]:
        yield " ".join(["making", *words[5:-1]])
        if words[5] == "made":
            yield f"made at stage {self.state.stages[int(words[0])]}"

    def checked(self, words: list[str]) -> Iterator[str]:
        said = words[5:]
        if said[0] == "good":
            yield f"good {said[2]} at stage {self.state.stages[int(words[0])]}"
            del said[1 : 1 if said[1] == "3600" else 2]  # the age
        yield " ".join(["checking", words[1], *said])

    def named(self, line: bytes) -> Iterator[str]:
        verb, *words = line.decode().split(" ")
        if verb in ("step", "record"):
            return self.offered(verb, words)
        named = {"making": self.made, "checking": self.checked}
        return named[verb](words) if verb in named else iter([f"{verb} line"])

    def write(self, lines: Iterable[bytes], write: Write) -> None:
        seen = collections.Counter(dict.fromkeys(names(), 0))
        for line in map(bytes.rstrip, lines):
            if line and not line.startswith(b"#"):
                seen.update(self.named(line))
        for name, count in seen.items():
            write(b"%9d %s\n" % (count, name.encode()))


# The stored lines.

A, B, C = journals.A, journals.B, journals.C  # sixteen bytes 11, 22, 33
S1 = bytes.fromhex("e5e973e5a6b2a43f48e7dc849e37bfcf")
OLD, NEW = bytes.fromhex("dd3bdf9344b678b185a6f5cb60fca715"), bytes.fromhex("445536bcd2513298075a5d379663c962")  # B.4's
V4, V6 = bytes([198, 51, 100, 100]), bytes.fromhex("20010db80220000159ded0f4876982b8")
NET = bytes([203, 0, 113, 203])
RESOLVER = bytes.fromhex("2464c4abcf10c957")  # its client cookie


def pattern(size: int) -> bytes:
    return bytes(0x80 + at % 0x80 for at in range(size))


def cookie(secret: bytes, time: int, head: bytes = SERVER_HEAD) -> bytes:
    """A COOKIE body whose hash is right, for the resolver; `head` is the version and the reserved bytes."""
    return RESOLVER + expected.server_cookie(SIPHASH, secret, RESOLVER, head + clock(time), V4)


class Script:
    """Lines in the making. They are given up where the rules say other than the one who wrote them."""

    def __init__(self, write: Write):
        self.run, self.write = Run(), write

    def note(self, *texts: str) -> None:
        for text in texts:
            self.write(f"# {text}\n".encode())

    def part(self, *texts: str) -> None:
        self.write(b"\n")
        self.note(*texts)

    def add(self, words: list[str], said: str) -> str:
        line = " ".join(words)
        got = self.run.said(line.encode())
        if got != said and not got.startswith(said + " "):
            sys.exit(f"{line}: {got}, not {said}")
        self.write(f"{line}\n".encode())
        return got

    def step(self, kind: int, member: int, time: int, secret: bytes, refused: int = 0) -> None:
        said = f"refused {refused}" if refused else "accepted"
        self.add(step_words(Record(kind, member, time, secret)), said)

    def record(self, record: Record, refused: int = 0) -> None:
        self.add(record_words(record), f"refused {refused}" if refused else "accepted")

    def make(self, member: int, time: int, said: str = "made", **changes) -> bytes:
        """The COOKIE body that was written."""
        call = replace(Making(member, time, RESOLVER, V4, bytes(OPTION)), **changes)
        after = self.add(call.words(), said).split(" ")[-1]
        return b"" if after == "-" else bytes.fromhex(after)[len(HEAD) : OPTION]

    def check(self, member: int, time: int, body: bytes, said: str, mode: str = "enabled", address: bytes = V4) -> None:
        self.add(Checking(member, mode, time, address, body).words(), said)

    def roll(self, secret: bytes, time: int) -> None:
        """A whole rollover of two members. It closes at `time` plus the wait."""
        self.step(OPEN, 0, time, secret)
        for kind, at in ((LEARN, time), (SWITCH, time), (DROP, time + WAIT)):
            for member in (0, 1):
                self.step(kind, member, at, secret)


def heading(s: Script) -> None:
    s.note(
        "Calls on one ledger, one to a line. The program prints each line again with what came of it.",
        "    step KIND MEMBER TIME SECRET",
        "    record BYTES",
        "    making MEMBER TIME CLIENT ADDRESS OUTPUT",
        "    checking MEMBER MODE TIME ADDRESS BODY",
        "KIND is 0 START, 1 OPEN, 2 LEARN, 3 SWITCH, 4 DROP, 5 CANCEL. START has the number of members for MEMBER.",
    )


def before_start(s: Script) -> None:
    s.part(
        "An exercise. Two engineers, Ada and Ben, each save a new cookie secret for the same fleet. Where a secret is a setting, the",
        "later save erases the earlier, and half the sites then make cookies that the other half reject. Here the ledger answers.",
        "The fleet has two members, 0 and 1. The resolver 198.51.100.100 (c6336464) asks now one, now the other.",
        "The secrets: A is sixteen bytes 11, B sixteen bytes 22, C sixteen bytes 33.",
    )
    s.part("1. Before START nobody holds a secret. Nothing is made, nothing is judged in any mode, and there is nothing to roll over.")
    s.make(0, 990, "nosecrets")
    for mode in MODES:
        s.check(0, 990, cookie(A, 990), "nosecrets", mode)
    s.step(OPEN, 0, 990, B, 5)
    s.note("A fleet has 1 to 32 members.")
    s.step(START, 0, 1000, A, 7)
    s.step(START, 33, 1000, A, 7)


def started(s: Script) -> None:
    s.part("2. START with the secret A. Both members make the same cookie for the resolver in the same second, and each takes it.")
    s.step(START, 2, 1000, A)
    mine = s.make(0, 1005)
    s.make(1, 1005)
    s.check(1, 1005, mine, "good 0 generating")
    s.check(0, 1100, mine, "good 95 generating", "enforced")
    s.note("Who asks for the first time has a client cookie alone. A member in mode Disabled looks at no cookie.")
    s.check(0, 1100, RESOLVER, "client-only", "enforced")
    s.check(0, 1100, mine, "ignored", "disabled")


def two_opens(s: Script) -> None:
    s.part("3. Ada opens a rollover to B. A second later Ben, who does not know, opens one to C. It is refused by 4: one is open.")
    s.step(OPEN, 0, 1010, B)
    s.step(OPEN, 0, 1011, C, 4)
    s.note("Nothing is erased. Ben can't have C learned, which is not the open secret (6), cancel what isn't his (6) or start anew (4).")
    s.step(LEARN, 0, 1012, C, 6)
    s.step(CANCEL, 0, 1012, C, 6)
    s.step(START, 2, 1012, C, 4)
    s.note("Opening alone changes no cookie: all still make with A and accept A.")
    s.check(1, 1013, s.make(0, 1012), "good 1 generating")


def learning(s: Script) -> None:
    s.part("4. LEARN: member 0 knows B, and makes with A as before. A cookie of B is good at member 0 and not yet at member 1.")
    s.step(LEARN, 0, 1020, B)
    s.check(1, 1021, s.make(0, 1021), "good 0 generating")
    s.check(0, 1021, cookie(B, 1021), "good 0 other")
    s.check(1, 1021, cookie(B, 1021), "bad hash")
    s.note("So member 0 may not make with B before member 1 knows it: SWITCH is refused by 9.")
    s.step(SWITCH, 0, 1030, B, 9)
    s.step(LEARN, 1, 1030, B)
    s.check(1, 1030, cookie(B, 1030), "good 0 other")


def switching(s: Script) -> bytes:
    s.part("5. SWITCH: member 1 makes with B now, member 0 still with A. Each takes what the other makes.")
    s.step(SWITCH, 1, 1040, B)
    new, old = s.make(1, 1041), s.make(0, 1041)
    s.check(0, 1042, new, "good 1 other")
    s.check(1, 1042, new, "good 1 generating")
    s.check(0, 1042, old, "good 1 generating")
    s.check(1, 1042, old, "good 1 other")
    s.note("Cookies of B are in use, so the rollover can't be cancelled any more (9).")
    s.step(CANCEL, 0, 1043, B, 9)
    s.note("Member 0 makes a last cookie with A in the very second of its own SWITCH, and then one with B.")
    last = s.make(0, 1050)
    s.step(SWITCH, 0, 1050, B)
    s.make(0, 1050)
    return last


def dropping(s: Script, last: bytes) -> None:
    s.part("6. DROP: 3,600 seconds later that last cookie is in its last good second. Whoever drops A now turns it away: refused by 10.")
    s.check(0, 4650, last, "good 3600 other")
    s.step(DROP, 0, 4650, B, 10)
    s.check(0, 4650, last, "good 3600 other")
    s.check(1, 4650, last, "good 3600 other", "enforced")
    s.note("One second more, and it is too old for anybody. Member 0 may drop A, and no longer knows that cookie.")
    s.check(0, 4651, last, "bad time")
    s.step(DROP, 0, 4651, B)
    s.check(0, 4651, last, "bad hash")
    s.check(1, 4651, last, "bad time")
    s.check(1, 4652, s.make(0, 4652), "good 0 generating")
    s.check(0, 4652, s.make(1, 4652), "good 0 generating")


def closing(s: Script) -> None:
    s.part("7. The last member drops, which closes the rollover: B is the current secret, and everybody is at stage 0 again.")
    s.step(DROP, 1, 4653, B)
    s.check(1, 4660, s.make(0, 4653), "good 7 generating")
    s.note("Nothing is open any more (5), and to the current secret nothing can be (6).")
    s.step(DROP, 1, 4660, B, 5)
    s.step(OPEN, 0, 4660, B, 6)
    s.note("Now Ben opens his rollover to C, has it learned by one, and thinks better of it: nobody makes with C yet.")
    s.step(OPEN, 0, 4661, C)
    s.step(LEARN, 1, 4662, C)
    s.check(1, 4663, cookie(C, 4663), "good 0 other")
    s.step(CANCEL, 0, 4664, C)
    s.check(1, 4665, cookie(C, 4665), "bad hash")
    s.step(LEARN, 0, 4665, C, 5)


def exercise(s: Script) -> None:
    before_start(s)
    started(s)
    two_opens(s)
    learning(s)
    last = switching(s)
    dropping(s, last)
    closing(s)


def step_refusals(s: Script) -> None:
    """B is current, nothing is open, and the last time is 4664. It ends with S1 current."""
    s.part("Every refusal of a step, on the way to the secret of RFC 9018's appendix. 1: no kind")
    s.step(6, 0, 5000, B, 1)
    s.step(255, 255, TIME, ZERO, 1)
    s.record(Record.read(b"\xff" * RECORD), 1)
    s.note("2: a time of 2^48 and more")
    s.step(OPEN, 0, LATEST + 1, S1, 2)
    s.step(OPEN, 0, TIME, S1, 2)
    s.note("3: a time before the last accepted step's; the refused ones behind it count for nothing")
    s.step(OPEN, 0, 4663, S1, 3)
    s.step(OPEN, 0, 0, S1, 3)
    s.note("4 and 5: START when started, steps of a rollover where none is open")
    s.step(START, 2, 5000, S1, 4)
    s.step(LEARN, 0, 5000, S1, 5)
    s.step(CANCEL, 0, 5000, S1, 5)
    s.note("6: the current secret; behind an OPEN, as a record with its spare bytes set and any member, a secret with one bit other")
    s.step(OPEN, 0, 5000, B, 6)
    s.record(Record(OPEN, 255, 5000, S1, b"\xff" * 6))
    s.step(LEARN, 0, 5000, journals.near(S1, 127), 6)
    s.note("7 and 8: no member's number; a member that is not at the stage from which its step starts")
    s.step(LEARN, 2, 5000, S1, 7)
    s.step(LEARN, 255, 5000, S1, 7)
    s.step(LEARN, 0, 5000, S1)
    s.step(LEARN, 0, 5000, S1, 8)
    s.step(SWITCH, 1, 5000, S1, 8)
    s.note("9: SWITCH with a member at 0, DROP with one at 1, CANCEL with one at 2")
    s.step(SWITCH, 0, 5000, S1, 9)
    s.step(LEARN, 1, 5000, S1)
    s.step(SWITCH, 0, 5100, S1)
    s.step(DROP, 0, 8701, S1, 9)
    s.step(CANCEL, 0, 5100, S1, 9)
    s.note("10: DROP before the last SWITCH plus 3,601, whosever it was")
    s.step(SWITCH, 1, 5200, S1)
    s.step(DROP, 0, 8701, S1, 10)
    s.step(DROP, 0, 8800, S1, 10)
    s.record(Record(DROP, 0, 8801, S1))
    s.record(Record(DROP, 1, 8801, S1))


def printed(s: Script) -> None:
    """S1 is current. It ends with a rollover from OLD to NEW in which member 0 has switched."""
    p1 = bytes.fromhex("2464c4abcf10c957010000005cf79f111f8130c3eee29480")
    p2 = bytes.fromhex("2464c4abcf10c957010000005cf7a871d4a564a1442aca77")
    p3 = bytes.fromhex("fc93fc62807ddb8601abcdef5cf78f71a314227b6679ebf5")
    p4 = bytes.fromhex("fc93fc62807ddb86010000005cf7a9acf73a7810aca2381e")
    p5 = bytes.fromhex("22681ab97d52c298010000005cf7c57926556bd0934c72f8")
    p6 = bytes.fromhex("22681ab97d52c298010000005cf7c609a6bb79d16625507a")

    def made(member: int, body: bytes, address: bytes) -> None:
        time, option = int.from_bytes(body[12:16], "big"), (HEAD + body).hex()
        s.make(member, time, f"made {option}9c9d", client=body[:CLIENT], address=address, output=pattern(OPTION + 2))

    s.part("RFC 9018's appendix. The secret is current at both. P1 is made, and comes back 2,400 seconds later; P2 is made then")
    made(0, p1, V4)
    s.check(1, 0x5CF7A871, p1, "good 2400 generating")
    made(1, p2, V4)
    s.note("P3 comes, 6,715 seconds old and with reserved bytes: too old, and good when it was younger; P4 is made")
    s.check(0, 0x5CF7A9AC, p3, "bad time", address=NET)
    s.check(0, 0x5CF78F71 + 3600, p3, "good 3600 generating", address=NET)
    made(0, p4, NET)
    s.note("P5 comes where its secret is current, then where member 0 makes with the new one and member 1 does not yet; P6 is made")
    s.roll(OLD, 9000)
    s.check(0, 0x5CF7C609, p5, "good 144 generating", address=V6)
    s.step(OPEN, 0, 13000, NEW)
    s.step(LEARN, 0, 13000, NEW)
    s.step(LEARN, 1, 13000, NEW)
    s.step(SWITCH, 0, 13000, NEW)
    s.check(0, 0x5CF7C609, p5, "good 144 other", address=V6)
    s.check(1, 0x5CF7C609, p5, "good 144 generating", address=V6)
    made(0, p6, V6)
    s.check(1, 0x5CF7C609, p6, "good 0 other", address=V6)
    s.note("P1 has no secret left that would know it")
    s.check(0, 0x5CF7A871, p1, "bad hash")


def making_refusals(s: Script) -> None:
    s.part("Makings. Refusal 1: an output of 0 and of 27 bytes; 28, 29 and 257 do, and what is beyond 28 stays")
    for size in (0, 27):
        s.make(0, 14000, "refused 1", output=pattern(size))
    for size in (28, 29, 257):
        s.make(0, 14000, output=pattern(size))
    s.note("2: addresses of 0, 5, 15, 17 and 64 bytes; 4 and 16 do; 1 goes before 2")
    for size in (0, 5, 15, 17, 64):
        s.make(0, 14000, "refused 2", address=(V6 * 4)[:size])
    s.make(0, 14000, address=V6)
    s.make(0, 14000, "refused 1", address=V6[:5], output=pattern(27))
    s.note("No secrets: numbers that are no member's, also 32, which is 0 modulo 32; a refusal goes before")
    for member in (2, 32, 255):
        s.make(member, 14000, "nosecrets", output=pattern(30))
    s.make(2, 14000, "refused 1", output=pattern(27))
    s.make(2, 14000, "refused 2", address=V6[:5])


def checking_refusals(s: Script) -> None:
    good = cookie(NEW, 14000)
    s.part("Checkings. Refusal 2: addresses of 0, 5 and 17 bytes, in each mode")
    for mode, size in zip(MODES, (0, 5, 17)):
        s.check(0, 14000, good, "refused 2", mode, (V6 * 2)[:size])
    s.note("10: bodies of 0, 7, 9, 15 and 41 bytes; not in Disabled; 2 goes before 10")
    for size in (0, 7, 9, 15, 41):
        s.check(0, 14000, (good + bytes(17))[:size], "refused 10", "enforced" if size % 2 else "enabled")
    s.check(0, 14000, good[:9], "ignored", "disabled")
    s.check(0, 14000, good[:9], "refused 2", address=V6[:5])
    s.note("No secrets, in each mode; a refusal goes before, and Disabled knows no 10")
    for mode in MODES:
        s.check(2, 14000, good, "nosecrets", mode)
    s.check(255, 14000, good[:9], "refused 10", "enforced")
    s.check(255, 14000, good, "refused 2", "disabled", V6[:5])
    s.check(255, 14000, good[:9], "nosecrets", "disabled")


def verdicts(s: Script) -> None:
    good = cookie(NEW, 14000)
    s.part("Verdicts. Bad method: bodies of 16 and 40 bytes, version 2. Bad hash: a bit, a client, an address, reserved bytes other")
    for body in (good[:16], good + bytes(16), cookie(NEW, 14000, b"\x02\0\0\0")):
        s.check(0, 14000, body, "bad method")
    for at in (191, 0):
        s.check(0, 14000, journals.near(good, at), "bad hash", "enforced")
    s.check(0, 14000, good, "bad hash", address=NET)
    s.check(0, 14000, good[:9] + b"\xab\xcd\xef" + good[12:], "bad hash")
    s.note("Reserved bytes are hashed as they came. Ages of -301, -300, 3,600 and 3,601 seconds")
    s.check(0, 14000, cookie(NEW, 14000, b"\x01\xab\xcd\xef"), "good 0 generating")
    for age, said in ((-301, "bad time"), (-300, "good -300"), (3600, "good 3600"), (3601, "bad time")):
        s.check(0, 14000 + age, good, said)
    s.note("A member with one secret does not take the secret of zeros for another")
    s.step(SWITCH, 1, 14000, NEW)
    for member in (0, 1):
        s.step(DROP, member, 14000 + WAIT, NEW)
    s.check(0, 18000, cookie(ZERO, 18000), "bad hash")
    s.check(0, 18000, cookie(OLD, 18000), "bad hash")
    s.check(0, 18000, cookie(NEW, 18000), "good 0 generating")


def clocks(s: Script) -> None:
    s.part("A cookie's clock is the time modulo 2^32. A second before its end, and over it; P8: timestamp ffffff9c at clock 100")
    s.check(1, 2**32, s.make(0, 2**32 - 1), "good 1 generating")
    early = s.make(0, 2**32 - 100)
    s.check(1, 2**32 + 100, early, "good 200 generating")
    s.check(1, 100, early, "good 200 generating")
    s.check(1, 2**32 + 3500, early, "good 3600 generating")
    s.check(1, 2**32 + 3501, early, "bad time")
    s.note("One time round later it is the same clock. Half a round is too old or too new")
    s.check(1, 2**33 - 100, early, "good 0 generating")
    for more in (-1, 0):
        s.check(1, 2**32 - 100 + 2**31 + more, early, "bad time")
    s.note("Makings and checkings have any time: 2^48, which no step may have, and the greatest")
    s.check(0, 2**48 + 5, s.make(1, 2**48), "good 5 generating")
    last = s.make(1, TIME)
    s.check(0, TIME, last, "good 0 generating")
    s.check(0, 0, last, "good 1 generating")
    s.note("Steps end with 2^48 - 1")
    s.step(OPEN, 0, LATEST, A)
    s.step(CANCEL, 0, LATEST + 1, A, 2)
    s.step(CANCEL, 0, LATEST, A)


def bad_lines(s: Script) -> None:
    step = step_words(Record(OPEN, 0, LATEST, A))  # which would be accepted
    making = Making(0, 14000, RESOLVER, V4, bytes(OPTION)).words()
    checking = Checking(0, "enabled", 14000, V4, cookie(NEW, 14000)).words()
    wrong = [
        ("KIND", step, 1, ["256", "-"]),
        ("MEMBER", making, 1, ["256", "18446744073709551616", "1x"]),
        ("TIME", checking, 3, ["18446744073709551616", "100000000000000000000", "", "-1", "+1", "0x1", "1e3"]),
        ("SECRET", step, 4, ["-", "11" * 15, "11" * 17]),
        ("BYTES", ["record", ""], 1, ["00" * 31, "00" * 33]),
        ("CLIENT", making, 3, ["-", "00" * 9]),
        ("ADDRESS", making, 4, ["", "00" * 65, "198.51.100.100"]),
        ("OUTPUT", making, 5, ["00" * 28 + "0"]),
        ("MODE", checking, 2, ["Enabled", "-"]),
        ("BODY", checking, 5, ["none", "0g" + "00" * 23]),
        ("verb", step, 0, ["STEP", "steps", "open"]),
    ]
    s.part(f"Bad lines. A bad {', '.join(name for name, _, _, _ in wrong)}")
    for _, words, at, instead in wrong:
        for word in instead:
            s.write(" ".join([*words[:at], word, *words[at + 1 :]]).encode() + b"\n")
    s.note("A field too few and too many; a space before, behind, and one more; a tab")
    line = " ".join(checking)
    shapes = [" ".join(checking[:-1]), line + " -", " " + line, line + " ", line.replace(" ", "  ", 1)]
    for shape in [*shapes, line.replace(" ", "\t", 1)]:
        s.write(shape.encode() + b"\n")
    s.note("Zeros in front of a number, and digits of either case; none of the bad lines moved the ledger")
    s.add(["step", "001", "0000", f"0{LATEST}", A.hex()], "accepted")
    s.add(["record", Record(CANCEL, 0, LATEST, A).written().hex().upper()], "accepted")
    s.add(["checking", "00", "enabled", "00014000", *map(str.upper, checking[4:])], "good 0 generating")


def store(write: Write) -> None:
    script = Script(write)
    heading(script)
    exercise(script)
    for cases in (step_refusals, printed, making_refusals, checking_refusals, verdicts, clocks, bad_lines):
        cases(script)


# Random lines.

AGES = [-301, -300, -1, 0, 1, 1800, 3599, 3600, 3601, 3602]
ODD = ["", "-", "-1", "+1", "256", "1e3", "0x10", "18446744073709551616", "9" * 25]  # no numbers that fit


class Maker:
    """Goes along with the ledger: steps as journals.py makes them, and meanwhile cookies of its members, made and checked."""

    def __init__(self, seed: int):
        self.dice = random.Random(seed)
        self.run, self.steps, self.parts = Run(), journals.Maker(seed), expected.Maker(seed)
        self.steps.dice = self.parts.dice = self.dice
        self.cookies = collections.deque(maxlen=50)  # the last that were made: when, for which address, and the body

    def chance(self, n: int) -> bool:
        return self.dice.randrange(n) == 0

    def step(self) -> list[str]:
        record = self.steps.drawn()
        return record_words(record) if any(record.spare) or self.chance(4) else step_words(record)

    def member(self) -> int:
        count = self.run.state.count
        if count == 0 or self.chance(15):
            return self.dice.choice([0, count, 31, 32, 33, 255, self.dice.randrange(256)])
        return self.dice.randrange(count)

    def time(self) -> int:
        """Mostly the ledger's, and often that of its last step."""
        now, near = self.steps.now(), self.dice.randrange(5000)
        if self.chance(20):
            turns = [2**32, 2**48, 2**63, 2**64 - 5000]
            return self.dice.choice([near, self.dice.randrange(2**64), *(turn + self.dice.choice([-near, near]) for turn in turns)])
        return now + self.dice.choice([0, 0, 0, 1, self.dice.randrange(100), near])

    def making(self) -> list[str]:
        output = self.parts.output() if self.chance(6) else self.dice.randbytes(self.dice.choice([OPTION, OPTION, 40]))
        address = self.parts.address() if self.chance(3) else self.dice.choice([V4, V6])
        return Making(self.member(), self.time(), self.dice.randbytes(CLIENT), address, output).words()

    def worn(self, body: bytes) -> bytes:
        """A body as it was made, or nearly."""
        which = self.dice.randrange(14)
        if which == 0:
            return body[:CLIENT]
        if which == 1:
            return (body + self.dice.randbytes(40))[: self.parts.size([0, 7, 9, 15, 16, 23, 25, 40, 41], 60)]
        if which == 2:
            return expected.flipped(body, self.dice)
        if which == 3:
            return self.dice.randbytes(CLIENT) + body[CLIENT:]
        return body

    def kept(self) -> tuple[int, bytes, bytes]:
        """One of the last cookies that were made, also by other members and before other steps."""
        made, address, body = self.dice.choice(self.cookies)
        age = self.dice.choice([*AGES, self.dice.randrange(-310, 3700), self.steps.now() - made])
        time = made + age + (2**32 * self.dice.randrange(1, 5) if self.chance(15) else 0)
        return time, self.parts.address() if self.chance(15) else address, self.worn(body)

    def strange(self) -> tuple[int, bytes, bytes]:
        """A cookie that no member made here: of any version and reserved bytes, under a secret that is held, was or was not."""
        state, address, time = self.run.state, self.parts.address(), self.time()
        held = [secret for secret in (state.current, state.new) if secret is not None]
        stamp = (time - self.parts.age()) % 2**32
        return time, address, self.parts.body(held * 3 + self.steps.pool[:2], stamp, address)

    def checking(self) -> list[str]:
        time, address, body = self.kept() if self.cookies and not self.chance(4) else self.strange()
        mode = self.dice.choice(["disabled", *["enabled", "enforced"] * 4])
        return Checking(self.member(), mode, min(max(time, 0), TIME), address, body).words()

    def bent(self, words: list[str]) -> list[str]:
        """One field other, gone or twice."""
        at = self.dice.randrange(len(words))
        word = words[at]
        if word.isdigit():
            instead = [[self.dice.choice(ODD)], [self.dice.choice(ODD)], ["0" * self.dice.randrange(1, 30) + word]]
        else:
            instead = [["-"], [""], [word.upper()]]
        return [*words[:at], *self.dice.choice([[], [word] * 2, *instead]), *words[at + 1 :]]

    def drawn(self) -> bytes:
        words = self.dice.choice([self.step, self.step, self.making, self.checking, self.checking])()
        line = " ".join(self.bent(words) if self.chance(30) else words).encode()
        if len(line) >= LONGEST:
            return self.drawn()  # nothing is read behind a long line
        return expected.damaged(line, self.dice) if self.chance(60) else line

    def keep(self, line: bytes, said: str) -> None:
        if said.startswith("made "):
            _, _, time, _, address, _ = line.split(b" ")
            written = bytes.fromhex(said.split(" ")[1])
            self.cookies.append((int(time), bytes.fromhex(address.decode()), written[len(HEAD) : OPTION]))

    def line(self) -> bytes:
        """A line, which the rules here have answered: so the ledger goes on, and what was written may come back."""
        line = self.drawn()
        try:
            self.keep(line, self.run.said(line))
        except BadLine:
            pass
        self.steps.state = self.run.state
        return line

    def write(self, count: int, write: Write) -> None:
        for left in range(count, 0, -1):
            if left == 200:  # the last ones come to the end of time
                self.steps.earliest = LATEST - self.dice.choice([self.dice.randrange(8000), self.dice.randrange(3)])
            write(self.line() + b"\n")


def main() -> None:
    words = argparse.ArgumentParser(description=__doc__, formatter_class=argparse.RawDescriptionHelpFormatter)
    words.add_argument("--stored", action="store_true")
    words.add_argument("--random", type=int)
    words.add_argument("--seed", type=int, default=1)
    words.add_argument("--tally", action="store_true")
    asked, write = words.parse_args(), sys.stdout.buffer.write
    if asked.stored:
        store(write)
    elif asked.random is not None:
        Maker(asked.seed).write(asked.random, write)
    elif asked.tally:
        Tally().write(sys.stdin.buffer, write)
    else:
        expected.expect(sys.stdin.buffer, write, Run().answered)


if __name__ == "__main__":
    main()
