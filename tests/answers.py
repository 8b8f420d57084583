#!/usr/bin/env python3
"""Writes what the program `answer_requests` should print for the lines on standard input, by an independent implementation.

The message is read by requests.py; its cookie is judged, and the option written, by expected.py. What joins them is written
here from document 01 alone, as they are; nothing of this repository's code or definitions is used.

    tests/answers.py <crates/answer_requests/stdin | cmp - crates/answer_requests/stdout
    tests/answers.py --stored packets.tsv >lines          only makes lines: the packets of a file, and requests made here
    tests/answers.py --random 100000 --seed 1 >lines      only makes lines: requests of many shapes, most of them whole
    tests/answers.py --tally <output                      counts the answers of each kind, those that never came too
"""
import argparse
import itertools
import sys
from collections.abc import Iterable, Iterator
from dataclasses import dataclass, replace

import expected
import requests  # tests/requests.py: a script's own folder comes before any package of this name
from expected import CLIENT, HEAD, OPTION, SERVER_HEAD, SHORT, BadLine, fixed, part, shown
from requests import ADDITIONAL, BODY, COOKIE, HEADER, LARGEST, SHOWN, WWW, ZONE, Option, Record, Refused, Write, opt, query

FIELDS = ["MODE", "GENERATING", "OTHER", "CLOCK", "ADDRESS", "OUTPUT", "MESSAGE"]
MODES = ["disabled", "enabled", "enforced"]
MESSAGE = 131072  # bytes of a message; a line of so many is too long before
OWED = {1: "caller", 2: "caller", 3: "nothing", 4: "nothing", 8: "badvers"}  # the others: formerr
SIPHASH = expected.SipHash()


@dataclass(frozen=True)
class Asked:
    """A line."""

    mode: str
    generating: bytes
    other: bytes  # no bytes: no other secret
    clock: bytes
    address: bytes
    output: bytes
    message: bytes

    def words(self) -> list[str]:
        parts = [self.generating, self.other, self.clock, self.address, self.output, self.message]
        return [self.mode, *map(shown, parts)]


# The rules of document 01.


def look(asked: Asked) -> requests.Answer:
    """Checks 1 to 10. In mode Disabled a message that 5 to 10 would refuse is as good as any other."""
    if len(asked.output) < OPTION:
        raise Refused(1)
    if len(asked.address) not in (4, 16):
        raise Refused(2)
    try:
        return requests.read(asked.message)
    except Refused as refusal:
        if asked.mode == "disabled" and refusal.number >= 5:
            return requests.Answer(0, None)
        raise


def written(asked: Asked, body: bytes | None, option: str) -> tuple[int, bytes]:
    """The refusal, which is 0, and the output afterwards."""
    if option == "none":
        return 0, asked.output
    if option == "kept":
        return expected.write_kept(asked.output, body)
    return expected.write_fresh(SIPHASH, asked.output, asked.generating, asked.clock, asked.address, body[:CLIENT])


def answer(asked: Asked) -> tuple[str, bytes]:
    """What is said of a request, and the output afterwards."""
    try:
        seen = look(asked)
    except Refused as refusal:
        return f"refused {refusal.number} {OWED.get(refusal.number, 'formerr')}", asked.output
    body = None if seen.cookie is None else asked.message[seen.cookie.start : seen.cookie.stop]
    held, clock = (asked.generating, asked.other), int.from_bytes(asked.clock, "big")
    verdict, keeps = expected.verdict(SIPHASH, asked.mode, *held, clock, asked.address, body)
    reply = expected.reply(asked.mode, seen.qdcount, verdict, keeps)
    refusal, output = written(asked, body, reply.split(" ")[1])
    assert refusal == 0
    return f"{verdict} {reply}", output


# Lines.


def parsed(line: bytes) -> Asked:
    words = line.split(b" ")
    if len(words) != len(FIELDS) or words[0] not in map(str.encode, MODES):
        raise BadLine
    mode, generating, other, clock, address, output, message = words
    fixes = fixed(generating, 16), fixed(other, 0, 16), fixed(clock, 4)
    return Asked(mode.decode(), *fixes, part(address, SHORT), part(output), part(message, MESSAGE))


def told(asked: Asked) -> str:
    said, output = answer(asked)
    return f"{said} {shown(output)}"


def answered(line: bytes) -> bytes:
    asked = parsed(line)
    if len(asked.message) > SHOWN:
        line = line[: line.rindex(b" ") + 1] + b"(%d bytes)" % len(asked.message)
    return line + b" " + told(asked).encode()


# What came of the lines.


def kinds() -> Iterator[str]:
    """Every kind of answer, so that one which never came is seen."""
    yield "bad line"
    for mode in MODES:
        yield from (f"{mode} refused {number}" for number in range(1, 5 if mode == "disabled" else 11))
        judged = [kind.removeprefix("judge ") for kind in expected.kinds() if kind.startswith(f"judge {mode} ")]
        yield from (kind for kind in judged if "refused" not in kind)


def kind(line: bytes) -> str:
    words = line.decode().split(" ")
    if words[0] in ("bad", "long"):
        return " ".join(words[:2])
    given = words[8:-1] if words[6].startswith("(") else words[7:-1]
    if given[0] == "refused":
        del given[2]  # the reply owed
    if given[0] == "good":
        del given[1]  # the age
    return " ".join([words[0], *given])


# The stored lines.


def four(value: int) -> bytes:
    return (value % 2**32).to_bytes(4, "big")


def pattern(size: int) -> bytes:
    return bytes(0x80 + at % 0x80 for at in range(size))


S1 = bytes.fromhex("e5e973e5a6b2a43f48e7dc849e37bfcf")
OLD, NEW = bytes.fromhex("dd3bdf9344b678b185a6f5cb60fca715"), bytes.fromhex("445536bcd2513298075a5d379663c962")  # B.4's
V4, CLOCK = bytes([198, 51, 100, 100]), 0x5CF7A000
USUAL = Asked("enabled", S1, OLD, four(CLOCK), V4, pattern(OPTION), b"")
DIG = b"\x01\x20"  # dig's flags: RD and AD

Case = tuple[str, list[Asked]]


def cookie(age: int = 100, secret: bytes = S1, head: bytes = SERVER_HEAD, clock: int = CLOCK) -> bytes:
    """A COOKIE body whose hash is right, for V4; `head` is the version and the reserved bytes."""
    client, front = BODY[:CLIENT], head + four(clock - age)
    return client + expected.server_cookie(SIPHASH, secret, client, front, V4)


def carried(*bodies: bytes) -> Record:
    return opt(*(Option(COOKIE, body) for body in bodies))


def call(*records: Record, questions: int = 1, **changes) -> Asked:
    """The usual call, with these records in a query as dig sends it."""
    return replace(USUAL, message=query(*records, flags=DIG, questions=[WWW] * questions), **changes)


def sure(asked: Asked, start: str) -> Asked:
    """A call whose answer document 01 prints."""
    if not told(asked).startswith(start):
        sys.exit(f"{' '.join(asked.words())}: {told(asked)}, not {start}")
    return asked


def printed_cases() -> Iterator[Case]:
    p1 = bytes.fromhex("2464c4abcf10c957010000005cf79f111f8130c3eee29480")
    p2 = bytes.fromhex("2464c4abcf10c957010000005cf7a871d4a564a1442aca77")
    p3 = bytes.fromhex("fc93fc62807ddb8601abcdef5cf78f71a314227b6679ebf5")
    p4 = bytes.fromhex("fc93fc62807ddb86010000005cf7a9acf73a7810aca2381e")
    p5 = bytes.fromhex("22681ab97d52c298010000005cf7c57926556bd0934c72f8")
    p6 = bytes.fromhex("22681ab97d52c298010000005cf7c609a6bb79d16625507a")
    v4, v6 = bytes([203, 0, 113, 203]), bytes.fromhex("20010db80220000159ded0f4876982b8")
    b1, b2, b3, b4 = (p1[12:16], V4), (p2[12:16], V4), (p4[12:16], v4), (p6[12:16], v6)  # clock and address
    for what, secrets, at, came, said, goes in [
        ("P1, B.1: the client cookie comes", (S1, b""), b1, p1[:CLIENT], "client-only {} fresh", p1),
        ("P2, B.2: P1 comes", (S1, b""), b2, p1, "good 2400 generating serve fresh", p2),
        ("P3 and P4, B.3: P3 comes", (S1, b""), b3, p3, "bad time badcookie fresh", p4),
        ("P4: the client cookie comes", (S1, b""), b3, p4[:CLIENT], "client-only {} fresh", p4),
        ("P5: it comes where its secret is the only one", (OLD, b""), b4, p5, "good 144 generating serve kept", p5),
        ("P5 and P6, B.4: P5 comes", (NEW, OLD), b4, p5, "good 144 other serve fresh", p6),
        ("P6: the client cookie comes", (NEW, OLD), b4, p6[:CLIENT], "client-only {} fresh", p6),
    ]:
        message, asked = call(carried(came)).message, []
        for mode, size, action in (("enabled", 28, "serve"), ("enforced", 40, "badcookie")):
            after = HEAD + goes + pattern(size)[OPTION:]
            one = Asked(mode, *secrets, *at, pattern(size), message)
            asked.append(sure(one, f"{said.format(action)} {after.hex()}"))
        yield what, asked


def verdict_cases() -> Iterator[Case]:
    good = cookie()
    bodies = {
        "a client cookie alone": good[:CLIENT],
        "a body of 16 bytes": good[:16],
        "a body of 40 bytes": good + bytes(16),
        "version 2": cookie(head=b"\x02\0\0\0"),
        "the hash with a bit changed": good[:-1] + bytes([good[-1] ^ 1]),
        "reserved bytes, and the hash without them": good[:9] + b"\xab\xcd\xef" + good[12:],
        "too old": cookie(3601),
        "too new": cookie(-301),
        "good": good,
        "good, old enough for a fresh one": cookie(1801),
        "good, from a clock ahead": cookie(-1),
        "good, with reserved bytes": cookie(head=b"\x01\xab\xcd\xef"),
        "good under the other secret": cookie(secret=OLD),
    }
    shapes = {"no OPT": [], "no COOKIE option": [opt()], **{what: [carried(body)] for what, body in bodies.items()}}
    for what, records in shapes.items():
        yield f"{what}: each mode, with QDCOUNT 1 and 0", [
            call(*records, mode=mode, questions=questions) for mode in MODES for questions in (1, 0)
        ]


def faulty(mode: str, *checks: int) -> Asked:
    """A call to which these checks apply."""
    body, version = cookie()[: 9 if 10 in checks else None], 1 if 8 in checks else 0
    record = opt(Option(COOKIE, body), version=version, data=b"\0\x03\0" if 9 in checks else b"")
    records, questions = [record] * (2 if 7 in checks else 1), [WWW] * (2 if 5 in checks else 1)
    message = query(*records, questions=questions, flags=b"\x81\x20" if 4 in checks else DIG)
    message = (message + b"\0" if 6 in checks else message)[: HEADER - 1 if 3 in checks else None]
    address, output = bytes(5) if 2 in checks else V4, pattern(27 if 1 in checks else OPTION)
    return replace(USUAL, mode=mode, address=address, output=output, message=message)


def refusal_cases() -> Iterator[Case]:
    for number in range(1, 11):
        first = {mode: f"refused {number} " for mode in MODES} | ({"disabled": "ignored "} if number > 4 else {})
        yield f"refusal {number}: each mode", [sure(faulty(mode, number), first[mode]) for mode in MODES]
        if number < 10:
            yield f"{number} and {number + 1}", [sure(faulty(mode, number, number + 1), first[mode]) for mode in MODES]
    yield "a number and all behind it", [faulty("enforced", *range(number, 11)) for number in range(1, 9)]


def filled(size: int) -> Asked:
    """A message of this size whose COOKIE body is at the very end."""
    padding, good = Option(12, b""), Option(COOKIE, cookie())
    padding.body = bytes(size - len(call(opt(padding, good)).message))
    return call(opt(padding, good))


def size_cases() -> Iterator[Case]:
    whole = call(carried(cookie()))
    outputs, addresses, messages = (0, 27, 28, 29, LARGEST), (0, 3, 4, 5, 15, 16, 17, 64), (SHOWN, LARGEST)
    yield "outputs of 0, 27, 28, 29 and 65,535 bytes", [replace(whole, output=pattern(size)) for size in outputs]
    yield "an output of 27 bytes where no option would be written", [call(output=pattern(27))]
    yield f"addresses of {', '.join(map(str, addresses))} bytes", [
        replace(whole, address=(V4 * 16)[:size]) for size in addresses
    ]
    yield "no message; messages of 11 and 12 bytes", [replace(USUAL, message=bytes(size)) for size in (0, 11, 12)]
    yield "messages of 512 and 513, 65,535 and 65,536 bytes", [filled(size + more) for size in messages for more in (0, 1)]


def secret_cases() -> Iterator[Case]:
    mine, others, zeros = (call(carried(cookie(secret=secret))) for secret in (S1, OLD, bytes(16)))
    yield "both secrets are one: the generating one matched", [sure(replace(mine, other=S1), "good 100 generating ")]
    yield "the secrets change places", [sure(replace(mine, generating=OLD, other=S1), "good 100 other ")]
    yield "a cookie of another secret, which is held no more", [sure(replace(others, other=b""), "bad hash ")]
    yield "a cookie of the secret of zero bytes: not held, the other, the generating one", [
        sure(replace(zeros, other=b""), "bad hash "),
        sure(replace(zeros, other=bytes(16)), "good 100 other "),
        sure(replace(zeros, generating=bytes(16), other=b""), "good 100 generating "),
    ]
    yield "too old under the other secret, and under both", [
        sure(call(carried(cookie(3601, OLD))), "bad time "),
        sure(call(carried(cookie(3601)), other=S1), "bad time "),
    ]


def aged(timestamp: int, age: int) -> Asked:
    return call(carried(cookie(age, clock=timestamp + age)), clock=four(timestamp + age))


def age_cases() -> Iterator[Case]:
    kept, fresh, bad = "good {} generating serve kept", "good {} generating serve fresh", "bad time badcookie fresh"
    edges = {-301: bad, -300: fresh, -1: fresh, 0: kept, 1800: kept, 1801: fresh, 3600: fresh, 3601: bad}
    for timestamp in (CLOCK, 2**32 - 100, 2**31 - 100):
        yield f"P7: ages {', '.join(map(str, edges))} of timestamp {timestamp:08x}", [
            sure(aged(timestamp, age), said.format(age) + " ") for age, said in edges.items()
        ]
    yield "ages 2^31 - 1, 2^31, 2^31 + 1", [sure(aged(CLOCK, 2**31 + more), bad) for more in (-1, 0, 1)]
    yield "P8: timestamp ffffff9c at clock 100; and the other way round", [
        sure(aged(0xFFFFFF9C, 200), kept.format(200)),
        sure(aged(100, -200), fresh.format(-200)),
    ]


def place_cases() -> Iterator[Case]:
    good, shorts = cookie(), [cookie()[:size] for size in (8, 9)]
    pairs = [pair for rest in (*shorts, cookie(3601)) for pair in ((good, rest), (rest, good))]
    yield "two COOKIE options, one of them good: 8 bytes, 9 bytes, too old", [call(carried(*pair)) for pair in pairs]
    nsid, padding, last = Option(3, b""), Option(12, bytes(9)), Option(COOKIE, good)
    yield "a COOKIE option behind others, and before", [call(opt(nsid, padding, last)), call(opt(last, padding, nsid))]
    extra = requests.other(ADDITIONAL, ZONE, bytes(4))
    yield "an OPT behind another record, and before", [call(extra, carried(good)), call(carried(good), extra)]


def put(cases: Iterable[requests.Case], mode: str) -> Iterator[Case]:
    """Messages of requests.py in the usual call."""
    for what, messages in cases:
        yield what, [replace(USUAL, mode=mode, message=message) for message in messages]


def bad_lines() -> Iterator[tuple[str, list[str]]]:
    words = call(carried(cookie())).words()
    line, message = " ".join(words), words[-1]
    wrong = [
        ["Enabled", "off", "-"],
        ["-", "11" * 15, "11" * 17],
        ["11" * 15, "none"],
        ["-", "5cf7a0", "5cf7a00", "5cf7a00000"],
        ["", "11" * 65, "198.51.100.100"],
        ["00" * (LARGEST + 1), "00" * 28 + "0", "0x" + "00" * 28],
        [message[:-1], message + "0g", "--"],
    ]
    for at, (field, instead) in enumerate(zip(FIELDS, wrong)):
        yield f"a bad {field}", [" ".join([*words[:at], word, *words[at + 1 :]]) for word in instead]
    yield "six fields, eight; a space before, behind, and one more; a tab", [
        *(" ".join(words[:6]), line + " -", " " + line, line + " "),
        *(line.replace(" ", "  ", 1), line.replace(" ", "\t", 1)),
    ]
    yield "digits of either case", [" ".join([words[0], *map(str.upper, words[1:])])]


def store(path: str, write: Write) -> None:
    packets = put(requests.packet_cases(path), "enabled")  # which are read as the file says
    made = [printed_cases(), verdict_cases(), refusal_cases(), size_cases(), packets, secret_cases(), age_cases()]
    made += [place_cases(), put(requests.hidden_cases(), "enforced")]
    lines = ((what, [" ".join(one.words()) for one in asked]) for what, asked in itertools.chain(*made))
    write(f"# {' '.join(FIELDS)}\n\n".encode())
    for what, group in itertools.chain(lines, bad_lines()):
        write("\n".join([f"# {what}", *group, ""]).encode())


# Random lines.


class Maker(requests.Maker):
    """Requests as requests.py makes them, with cookies as expected.py makes them."""

    def __init__(self, seed: int):
        super().__init__(seed)
        self.parts = expected.Maker(seed)
        self.parts.dice = self.dice

    def cookie(self) -> Option:
        return Option(COOKIE, self.parts.body(self.secrets, self.timestamp, self.address))

    def message(self) -> bytes:
        return super().message() if self.chance(3) else self.request().written().message

    def asked(self) -> Asked:
        mode = self.dice.choice(["disabled", *["enabled", "enforced"] * 3])
        generating, other, stranger = (self.dice.randbytes(16) for _ in range(3))
        self.secrets = [generating] * 6 + [other] * 3 + [stranger]
        self.timestamp, self.address = self.parts.clock(), self.parts.address()
        other = self.dice.choice([other] * 20 + [b""] * 4 + [generating])
        clock = four(self.timestamp + self.parts.age())
        output = self.parts.output() if self.chance(5) else self.some(OPTION, 60)
        return Asked(mode, generating, other, clock, self.address, output, self.message())

    def line(self) -> bytes:
        words = self.asked().words()
        if self.chance(40):
            at = self.dice.randrange(len(words))
            words[at : at + 1] = self.dice.choice([[], words[at : at + 1] * 2, ["-"], [""], [words[at].upper()]])
        line = " ".join(words).encode()
        if len(line) >= expected.LONGEST:
            return self.line()  # nothing is read behind a long line
        return requests.damaged(line, self.dice) if self.chance(60) else line


def main() -> None:
    words = argparse.ArgumentParser(description=__doc__, formatter_class=argparse.RawDescriptionHelpFormatter)
    words.add_argument("--stored", metavar="PACKETS")
    words.add_argument("--random", type=int)
    words.add_argument("--seed", type=int, default=1)
    words.add_argument("--tally", action="store_true")
    asked, write = words.parse_args(), sys.stdout.buffer.write
    if asked.stored is not None:
        store(asked.stored, write)
    elif asked.random is not None:
        maker = Maker(asked.seed)
        for _ in range(asked.random):
            write(maker.line() + b"\n")
    elif asked.tally:
        expected.tally(sys.stdin.buffer, write, kinds(), kind)
    else:
        expected.expect(sys.stdin.buffer, write, answered)


if __name__ == "__main__":
    main()
