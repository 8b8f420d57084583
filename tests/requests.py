#!/usr/bin/env python3
"""Writes what the program `read_requests` should print for the lines on standard input, by an independent reader.

The reader is written here from document 01 alone ("Reading a request", "Answer numbers for a request"); nothing of this
repository's code or definitions is used.

    tests/requests.py <crates/read_requests/stdin | cmp - crates/read_requests/stdout
    tests/requests.py --stored packets.tsv >lines          only makes lines: the packets of a file, and messages made here
    tests/requests.py --random 100000 --seed 1 >lines      only makes lines: requests of many shapes, most of them damaged
    tests/requests.py --tally <output                      counts the answers of each kind, those that never came too
"""
import argparse
import collections
import csv
import itertools
import random
import sys
from collections.abc import Callable, Iterable, Iterator
from dataclasses import dataclass, field, replace
from typing import NamedTuple

HEX = set(b"0123456789abcdefABCDEF")
LONGEST = 262143  # bytes of a line that `read_requests` reads
SHOWN = 512  # bytes of a message that is printed again

HEADER, LARGEST = 12, 65535  # bytes of a message
OPT, COOKIE = 41, 10  # a record's TYPE and an option's code
ROOT = b"\0"
ANSWER, AUTHORITY, ADDITIONAL = 1, 2, 3

Write = Callable[[bytes], object]


# The rules of document 01.


class Refused(Exception):
    def __init__(self, number: int):
        super().__init__(number)
        self.number = number


class Answer(NamedTuple):
    qdcount: int
    cookie: range | None  # where the body of the first COOKIE option lies


class Seen(NamedTuple):
    """A record as it was read."""

    section: int
    owner: bytes
    type: int
    version: int  # the second byte of the TTL, which matters in an OPT
    data: range


def number(message: bytes, at: int) -> int:
    return int.from_bytes(message[at : at + 2], "big")


def inside(message: bytes, end: int) -> int:
    if end > len(message):
        raise Refused(6)
    return end


def name_end(message: bytes, at: int) -> int:
    while True:
        inside(message, at + 1)
        length = message[at]
        if length == 0:
            return at + 1
        if length >= 192:
            return inside(message, at + 2)
        if length >= 64:
            raise Refused(6)
        at = inside(message, at + 1 + length)


def record_at(message: bytes, section: int, at: int) -> Seen:
    owner_end = name_end(message, at)
    start = inside(message, owner_end + 10)
    end = inside(message, start + number(message, owner_end + 8))
    version = message[owner_end + 5]
    return Seen(section, message[at:owner_end], number(message, owner_end), version, range(start, end))


def records_of(message: bytes) -> list[Seen]:
    """Check 6: the whole message."""
    at, records = HEADER, []
    for _ in range(number(message, 4)):
        at = inside(message, name_end(message, at) + 4)
    for section in (ANSWER, AUTHORITY, ADDITIONAL):
        for _ in range(number(message, 4 + 2 * section)):
            records.append(record_at(message, section, at))
            at = records[-1].data.stop
    if at != len(message):
        raise Refused(6)
    return records


def opt_of(records: list[Seen]) -> Seen | None:
    """Check 7."""
    opts = [record for record in records if record.type == OPT]
    if len(opts) > 1 or any(opt.section != ADDITIONAL or opt.owner != ROOT for opt in opts):
        raise Refused(7)
    return opts[0] if opts else None


def options_of(message: bytes, data: range) -> list[tuple[int, range]]:
    """Check 9: code and body of each option."""
    at, options = data.start, []
    while at < data.stop:
        body = at + 4
        if body > data.stop or body + number(message, at + 2) > data.stop:
            raise Refused(9)
        options.append((number(message, at), range(body, body + number(message, at + 2))))
        at = options[-1][1].stop
    return options


def read(message: bytes) -> Answer:
    if not HEADER <= len(message) <= LARGEST:
        raise Refused(3)
    if message[2] & 0x80:
        raise Refused(4)
    qdcount = number(message, 4)
    if qdcount > 1:
        raise Refused(5)
    opt = opt_of(records_of(message))
    if opt is None:
        return Answer(qdcount, None)
    if opt.version != 0:
        raise Refused(8)
    cookies = [body for code, body in options_of(message, opt.data) if code == COOKIE]
    if not cookies:
        return Answer(qdcount, None)
    if len(cookies[0]) != 8 and not 16 <= len(cookies[0]) <= 40:
        raise Refused(10)
    return Answer(qdcount, cookies[0])


# Lines.


class BadLine(Exception):
    pass


def decode(text: bytes) -> bytes:
    if text == b"-":
        return b""
    if len(text) % 2 or not set(text) <= HEX:
        raise BadLine
    return bytes.fromhex(text.decode())


def shown(message: bytes) -> str:
    return message.hex() or "-"


def told(message: bytes) -> str:
    try:
        answer = read(message)
    except Refused as refusal:
        return f"refused {refusal.number} -"
    if answer.cookie is None:
        return f"none {answer.qdcount} -"
    start, end = answer.cookie.start, answer.cookie.stop
    return f"cookie {answer.qdcount} {start} {end} {shown(message[start:end])}"


def answered(line: bytes) -> bytes:
    message = decode(line)
    head = line if len(message) <= SHOWN else b"(%d bytes)" % len(message)
    return head + b" " + told(message).encode()


def expect(lines: Iterable[bytes], write: Write) -> None:
    for count, line in enumerate(lines, 1):
        line = line[:-1] if line.endswith(b"\n") else line
        if len(line) > LONGEST:
            write(b"long line %d\n" % count)
            return
        if line == b"" or line.startswith(b"#"):
            write(line + b"\n")
            continue
        try:
            write(answered(line) + b"\n")
        except BadLine:
            write(b"bad line %d\n" % count)


# What came of the lines.


def kinds() -> Iterator[str]:
    """Every kind of answer, so that one which never came is seen."""
    yield "bad line"
    yield from (f"refused {refusal}" for refusal in range(3, 11))
    for qdcount in (0, 1):
        yield from (f"{given}, QDCOUNT {qdcount}" for given in ("none", "cookie of 8", "cookie of 16 to 40"))


def kind(line: bytes) -> str:
    words = line.decode().split(" ")
    if words[0] in ("bad", "long"):
        return " ".join(words[:2])
    given = words[2:] if line.startswith(b"(") else words[1:]
    if given[0] == "refused":
        return " ".join(given[:2])
    if given[0] == "none":
        return f"none, QDCOUNT {given[1]}"
    size = int(given[3]) - int(given[2])
    return f"cookie of {'8' if size == 8 else '16 to 40'}, QDCOUNT {given[1]}"


def tally(lines: Iterable[bytes], write: Write) -> None:
    seen = collections.Counter(dict.fromkeys(kinds(), 0))
    seen.update(kind(line) for line in map(bytes.rstrip, lines) if line and not line.startswith(b"#"))
    for name, count in seen.items():
        write(b"%9d %s\n" % (count, name.encode()))


# Messages.


def two(value: int) -> bytes:
    return value.to_bytes(2, "big")


class Place(NamedTuple):
    """A number in a message."""

    at: int
    width: int

    def changed(self, message: bytes, change: Callable[[int], int]) -> bytes:
        end = self.at + self.width
        value = change(int.from_bytes(message[self.at : end], "big")) % 256**self.width
        return message[: self.at] + value.to_bytes(self.width, "big") + message[end:]


COUNTS = [Place(4 + 2 * section, 2) for section in range(4)]


@dataclass
class Name:
    labels: list[bytes] = field(default_factory=list)
    tail: bytes = ROOT  # or a pointer


@dataclass
class Option:
    code: int
    body: bytes


@dataclass
class Record:
    section: int
    owner: Name
    type: int
    settings: bytes  # CLASS and TTL
    options: list[Option] = field(default_factory=list)
    data: bytes = b""  # behind the options


@dataclass
class Request:
    id: bytes = b"\x12\x34"
    flags: bytes = b"\x01\x00"
    questions: list[Name] = field(default_factory=list)
    asked: bytes = b"\0\x01\0\x01"  # QTYPE and QCLASS
    records: list[Record] = field(default_factory=list)

    def written(self) -> "Written":
        held = [record.section for record in self.records]
        counts = [len(self.questions), *map(held.count, (ANSWER, AUTHORITY, ADDITIONAL))]
        made = Written(self.id + self.flags + b"".join(map(two, counts)))
        for name in self.questions:
            made.add_name(name)
            made.message += self.asked
        for record in sorted(self.records, key=lambda record: record.section):
            made.add_record(record)
        return made


@dataclass
class Written:
    """A request as bytes, and where its length fields are."""

    message: bytes
    lengths: list[Place] = field(default_factory=list)

    def add_length(self, length: int, width: int) -> None:
        self.lengths.append(Place(len(self.message), width))
        self.message += length.to_bytes(width, "big")

    def add_name(self, name: Name) -> None:
        for label in name.labels:
            self.add_length(len(label), 1)
            self.message += label
        self.message += name.tail

    def add_record(self, record: Record) -> None:
        self.add_name(record.owner)
        self.message += two(record.type) + record.settings
        self.add_length(sum(4 + len(option.body) for option in record.options) + len(record.data), 2)
        for option in record.options:
            self.message += two(option.code)
            self.add_length(len(option.body), 2)
            self.message += option.body
        self.message += record.data


def opt(*options: Option, version: int = 0, **changes) -> Record:
    settings = b"\x04\xd0" + bytes([0, version, 0, 0])
    return replace(Record(ADDITIONAL, Name(), OPT, settings, list(options)), **changes)


def other(section: int, owner: Name, data: bytes) -> Record:
    """An A record, whatever its data."""
    return Record(section, owner, 1, b"\0\x01\0\0\x0e\x10", [], data)


# The stored lines.

BODY = bytes.fromhex("2464c4abcf10c957010000005cf79f111f8130c3eee29480")  # RFC 9018's, B.1
GOOD = Option(COOKIE, BODY)
WWW = Name([b"www", b"example", b"test"])
ZONE = Name([b"new"], b"\xc0\x10")  # new.example.test, where the question is for WWW
BASE = Request(questions=[WWW], records=[opt(GOOD)])

Case = tuple[str, list[bytes]]


def query(*records: Record, **changes) -> bytes:
    """The base query with other records, and perhaps other questions or flags."""
    return replace(BASE, records=list(records), **changes).written().message


def cookie(size: int) -> Option:
    return Option(COOKIE, bytes(itertools.islice(itertools.cycle(BODY), size)))


def packet_cases(path: str) -> Iterator[Case]:
    """The packets of a file, if they are read as the file says."""
    with open(path, newline="") as rows:
        for row in csv.DictReader(rows, delimiter="\t"):
            message = bytes.fromhex(row["message"])
            words = told(message).split(" ")
            refusal = words[1] if words[0] == "refused" else "0"
            if refusal != row["refusal"] or words[-1] != (row["cookie_body"] or "-"):
                sys.exit(f"{row['name']}: read as {' '.join(words)}")
            yield f"{row['name']}: {row['what']}", [message]


def size_cases() -> Iterator[Case]:
    base = BASE.written()
    yield "a query with a COOKIE option of 24 bytes, and cut at every byte", [
        base.message,
        *(base.message[:size] for size in range(len(base.message))),
    ]
    yield "bytes left over", [base.message + bytes(size) for size in (1, 2, 11)]
    yield "a header alone, with no question and with one", [bytes(HEADER), COUNTS[0].changed(bytes(HEADER), lambda _: 1)]
    room = LARGEST - len(query(opt(Option(12, b""), GOOD)))
    yield "65,535 and 65,536 bytes, the COOKIE body at the very end", [
        query(opt(Option(12, bytes(size)), GOOD)) for size in (room, room + 1)
    ]
    room = SHOWN - len(query(opt(Option(12, b""), GOOD)))
    yield "512 and 513 bytes", [query(opt(Option(12, bytes(size)), GOOD)) for size in (room, room + 1)]


def number_cases() -> Iterator[Case]:
    base = BASE.written()
    for place in base.lengths:
        yield f"the length field at byte {place.at}, one more and one less", [
            place.changed(base.message, lambda length: length + 1),
            place.changed(base.message, lambda length: length - 1),
        ]
    for place in COUNTS:
        yield f"the count at byte {place.at}: ffff, one more, one less", [
            place.changed(base.message, lambda _: 0xFFFF),
            place.changed(base.message, lambda count: count + 1),
            place.changed(base.message, lambda count: count - 1),
        ]
    many = [other(ANSWER, Name(), b"") for _ in range(300)]
    yield "300 answers, and a COOKIE option behind them", [query(*many, opt(GOOD))]


def name_cases() -> Iterator[Case]:
    for length in (1, 62, 63, 64, 127, 128, 191):
        yield f"a question name whose label has {length} bytes", [query(opt(GOOD), questions=[Name([b"x" * length])])]
    for tail in (b"\xc0\x00", b"\xc0\x0c", b"\xc1\x00", b"\xff\xff"):
        yield f"a question name that is the pointer {tail.hex()}", [query(opt(GOOD), questions=[Name([], tail)])]
    yield "length bytes 64, 128 and 191 where a pointer could stand", [
        query(opt(GOOD), questions=[Name([], bytes([length, 0x0C]))]) for length in (64, 128, 191)
    ]
    yield "a question name that ends in a pointer", [query(opt(GOOD), questions=[Name([b"www"], b"\xc0\x0c")])]
    yield "a pointer whose second byte is past the end", [query(questions=[Name([], b"\xc0")], asked=b"")]
    yield "the root is asked for", [query(opt(GOOD), questions=[Name()])]
    yield "a name of 320 bytes", [query(opt(GOOD), questions=[Name([b"x" * 63] * 5)])]
    yield "a question of TYPE 41, which is no record", [query(opt(GOOD), asked=b"\0\x29\0\x01")]


def opt_cases() -> Iterator[Case]:
    yield "no OPT; an OPT without data", [query(), query(opt())]
    extra = [other(ADDITIONAL, ZONE, bytes(4)), other(ADDITIONAL, Name(), b"")]
    yield "an OPT before, between and behind other records", [
        query(*extra[:at], opt(GOOD), *extra[at:]) for at in range(len(extra) + 1)
    ]
    yield "two OPTs: the cookie in the first, in the second, in none", [
        query(opt(GOOD), opt()),
        query(opt(), opt(GOOD)),
        query(opt(), opt()),
    ]
    yield "an OPT among the answers, in the authority section, and there and in its place", [
        query(opt(GOOD, section=ANSWER)),
        query(opt(GOOD, section=AUTHORITY)),
        query(opt(section=AUTHORITY), opt(GOOD)),
    ]
    zero = b"\xc0\x1d"  # the last byte of the question's name
    owners = [Name([b"a"]), WWW, Name([], zero), Name([], b"\xc0\x06"), Name([b"a"], zero)]
    yield "an OPT whose owner is a label, a name, a pointer to a 0 (twice), a label and a pointer", [
        query(opt(GOOD, owner=owner)) for owner in owners
    ]
    yield "the data of an OPT under TYPE 40, 42, 297 and 10496", [
        query(opt(GOOD, type=kind)) for kind in (40, 42, 0x0129, 0x2900)
    ]
    yield "EDNS version 1, 2, 255", [query(opt(GOOD, version=version)) for version in (1, 2, 255)]
    yield "the other bytes of the TTL, and CLASS, are not looked at", [
        query(replace(opt(GOOD), settings=bytes.fromhex("ffffff00ffff"))),
        query(replace(opt(GOOD), settings=bytes.fromhex("0000ff00ffff"))),
    ]


def header_cases() -> Iterator[Case]:
    yield "QR is 1, alone and with every other flag", [
        query(opt(GOOD), flags=b"\x80\0"),
        query(opt(GOOD), flags=b"\xff\xff"),
    ]
    yield "every flag but QR", [query(opt(GOOD), flags=b"\x7f\xff")]
    yield "no question", [query(*records, questions=[]) for records in ([opt(GOOD)], [opt(cookie(8))], [opt()], [])]
    yield "two questions", [query(opt(GOOD), questions=[WWW, WWW])]


def option_cases() -> Iterator[Case]:
    for rest in ("00", "000a", "000a00", "000a0001", "000a0008" + "11" * 7, "000affff", "fffe0001"):
        yield f"options that end in {rest}, alone and behind a COOKIE option", [
            query(opt(data=bytes.fromhex(rest))),
            query(opt(GOOD, data=bytes.fromhex(rest))),
        ]
        behind = other(ADDITIONAL, Name([BODY]), BODY)
        yield "the same, with a record behind the OPT", [
            query(opt(data=bytes.fromhex(rest)), behind),
            query(opt(GOOD, data=bytes.fromhex(rest)), behind),
        ]
    yield "COOKIE bodies of 0 to 41 bytes, and of 63, 64, 255, 256, 264, 272, 296, 512", [
        query(opt(cookie(size))) for size in (*range(42), 63, 64, 255, 256, 264, 272, 296, 512)
    ]
    for first in (8, 24, 40, 0, 9, 41):
        yield f"two COOKIE options: {first} bytes, and then 8, 24, 40, 0, 9, 41", [
            query(opt(cookie(first), cookie(second))) for second in (8, 24, 40, 0, 9, 41)
        ]
    yield "a COOKIE option behind other options, and before them", [
        query(opt(Option(3, b""), Option(12, bytes(9)), GOOD)),
        query(opt(GOOD, Option(12, bytes(9)), Option(3, b""))),
    ]
    for code in (0x0A00, 0x010A, 0x0A0A, 9, 11):
        yield f"an option of code {code:04x}", [query(opt(Option(code, BODY)))]


def hidden_cases() -> Iterator[Case]:
    """The bytes of a COOKIE option where there is none, without a true one and before one of 8 bytes."""
    option = two(COOKIE) + two(len(BODY)) + BODY
    whole = Request(records=[opt(GOOD)]).written().message[HEADER:]
    for rest in ([], [cookie(8)]):
        seen = "and a true one" if rest else "and no other"
        yield f"a COOKIE option in a label, {seen}", [query(opt(*rest), questions=[Name([option])])]
        yield f"a COOKIE option in another option's body, {seen}", [query(opt(Option(65001, option), *rest))]
        yield f"a COOKIE option in the data of another record, {seen}", [
            query(other(section, ZONE, option), opt(*rest)) for section in (ANSWER, AUTHORITY, ADDITIONAL)
        ]
        yield f"an OPT in the data of another record, {seen}", [query(other(ANSWER, ZONE, whole), opt(*rest))]


def pair_cases() -> Iterator[Case]:
    """Two checks apply, and the lower number is given."""
    response, double = b"\x80\0", [WWW, WWW]
    past = b"\0\x03\0"
    yield "3 and 4", [query(opt(GOOD), flags=response)[:11]]
    yield "4 and 5", [query(opt(GOOD), flags=response, questions=double)]
    yield "4 and 6", [query(opt(GOOD), flags=response) + b"\0"]
    yield "5 and 6", [query(opt(GOOD), questions=double) + b"\0", COUNTS[0].changed(BASE.written().message, lambda _: 2)]
    yield "6 and 7", [
        query(opt(GOOD), opt(GOOD)) + b"\0",
        query(opt(GOOD, section=ANSWER), other(ADDITIONAL, ZONE, b""))[:-1],
    ]
    yield "6 and 10", [query(opt(cookie(9)))[:-1]]
    yield "7 and 8", [query(opt(GOOD, version=1, section=AUTHORITY)), query(opt(GOOD, version=1), opt(GOOD))]
    yield "7 and 9", [query(opt(data=past, owner=Name([b"a"])))]
    yield "7 and 10", [query(opt(cookie(9)), opt(GOOD))]
    yield "8 and 9", [query(opt(GOOD, version=1, data=past))]
    yield "8 and 10", [query(opt(cookie(9), version=1))]
    yield "9 and 10", [query(opt(cookie(9), data=past)), query(opt(cookie(0), GOOD, data=past))]


BAD_LINES = ["0", "123", "12 34", "12x4", "--", " ", "-00", "12340100000000000000000 0", "0x12"]


def store(path: str, write: Write) -> None:
    made = [size_cases, number_cases, name_cases, opt_cases, header_cases, option_cases, hidden_cases, pair_cases]
    write(b"# Packets of name servers and tools, and damaged ones.\n\n")
    for what, messages in itertools.chain(packet_cases(path), *(cases() for cases in made)):
        write(f"# {what}\n".encode())
        for message in messages:
            write(shown(message).encode() + b"\n")
    write(b"# lines that are no message; digits of either case\n")
    write("\n".join([*BAD_LINES, BASE.written().message.hex().upper()]).encode() + b"\n")


# Random lines.

EDGES = [0, 7, 8, 9, 15, 16, 17, 24, 39, 40, 41]  # sizes of COOKIE bodies
CODES = [3, 5, 8, 9, 11, 12, 15, 0x0A00, 0x010A, 65001]
TYPES = [1, 2, 6, 16, 28, 40, 42, 250, 0x2900, 0x0129]


class Maker:
    def __init__(self, seed: int):
        self.dice = random.Random(seed)

    def chance(self, n: int) -> bool:
        return self.dice.randrange(n) == 0

    def some(self, least: int, most: int) -> bytes:
        return self.dice.randbytes(self.dice.randint(least, most))

    # Requests in order, but for the sizes of their cookies.

    def name(self) -> Name:
        labels = [self.some(1, self.dice.choice([3, 8, 8, 63])) for _ in range(self.dice.choice([0, 1, 1, 2, 3, 6]))]
        pointer = bytes([self.dice.randint(192, 255), self.dice.randrange(256)])
        return Name(labels, pointer if self.chance(4) else ROOT)

    def cookie(self) -> Option:
        sizes = [8, 24, 8, 24, self.dice.randint(16, 40), self.dice.randint(16, 40)]
        if self.chance(6):
            sizes = [*EDGES, self.dice.randrange(300)]
        return Option(COOKIE, self.dice.randbytes(self.dice.choice(sizes)))

    def options(self) -> list[Option]:
        count = self.dice.choice([0, 0, 0, 1, 2, 5])
        options = [Option(self.dice.choice([*CODES, self.dice.randrange(2**16)]), self.some(0, 20)) for _ in range(count)]
        options += [self.cookie() for _ in range(self.dice.choice([0, 1, 1, 1, 1, 2, 3]))]
        self.dice.shuffle(options)
        return options

    def opt(self) -> Record:
        extended, flags = self.dice.choice([b"\0", self.some(1, 1)]), self.dice.choice([b"\x80\0", b"\0\0", self.some(2, 2)])
        return Record(ADDITIONAL, Name(), OPT, self.some(2, 2) + extended + b"\0" + flags, self.options())

    def record(self) -> Record:
        section = self.dice.choice([ANSWER, AUTHORITY, ADDITIONAL, ADDITIONAL])
        data = self.dice.choice([b"", self.some(4, 4), self.some(0, 40), two(COOKIE) + two(8) + self.some(8, 8)])
        return Record(section, self.name(), self.dice.choice(TYPES), self.some(6, 6), [], data)

    def request(self) -> Request:
        records = [self.record() for _ in range(self.dice.choice([0, 0, 0, 1, 2, 4]))]
        if not self.chance(8):
            records.insert(self.dice.randint(0, len(records)), self.opt())
        flags = bytes([self.dice.randrange(128), self.dice.randrange(256)])
        questions = [] if self.chance(5) else [self.name()]
        return Request(self.some(2, 2), flags, questions, self.some(4, 4), records)

    # Damage before a request is written.

    def wrong_opt(self, request: Request) -> None:
        """An OPT in another section, of another owner, or one more."""
        wrong = self.opt()
        shape = self.dice.randrange(4)
        if shape == 0:
            wrong.section = self.dice.choice([ANSWER, AUTHORITY])
        elif shape == 1:
            wrong.owner = Name([], two(0xC000 + self.dice.choice([8, root_of(request)])))
        elif shape == 2:
            wrong.owner = Name([self.some(1, 9)], self.dice.choice([ROOT, b"\xc0\x0c"]))
        if shape == 3 or self.chance(3):
            request.records.append(wrong)
        else:
            request.records[:] = [record for record in request.records if record.type != OPT] + [wrong]

    def opts(self, request: Request) -> list[Record]:
        if not any(record.type == OPT for record in request.records):
            request.records.append(self.opt())
        return [record for record in request.records if record.type == OPT]

    def wrong_version(self, request: Request) -> None:
        for opt in self.opts(request):
            opt.settings = opt.settings[:3] + bytes([self.dice.choice([1, 2, 128, 255])]) + opt.settings[4:]

    def wrong_options(self, request: Request) -> None:
        """An option past the data, whose bytes are well told by RDLENGTH."""
        missing = two(self.dice.choice([COOKIE, 12])) + two(self.dice.choice([1, 8, 24, 256, 65535]))
        for opt in self.opts(request):
            opt.data = self.dice.choice([missing[: self.dice.randint(1, 4)], missing + bytes(self.dice.randrange(24))])
            if self.chance(3):
                opt.options, opt.data = [], opt.data[: self.dice.randint(1, 4)]

    def wrong_cookie(self, request: Request) -> None:
        for opt in self.opts(request):
            size = self.dice.choice([0, 1, 7, 9, 15, 41, 42, 256, 264, self.dice.randrange(300)])
            opt.options.insert(0, Option(COOKIE, self.dice.randbytes(size)))

    def wrong_questions(self, request: Request) -> None:
        request.questions = [self.name() for _ in range(self.dice.choice([2, 2, 3]))]

    def response(self, request: Request) -> None:
        request.flags = bytes([request.flags[0] | 0x80, request.flags[1]])

    # Damage to the bytes of one.

    def cut(self, made: Written) -> bytes:
        return made.message[: self.dice.randrange(len(made.message))]

    def cut_short(self, made: Written) -> bytes:
        return made.message[: self.dice.randrange(HEADER)]

    def flipped(self, made: Written) -> bytes:
        change = self.dice.choice([lambda byte: byte ^ 1 << self.dice.randrange(8), lambda _: self.dice.randrange(256)])
        return Place(self.dice.randrange(len(made.message)), 1).changed(made.message, change)

    def slipped(self, made: Written) -> bytes:
        """A length field that is off by one, or wholly."""
        change = self.dice.choice([1, -1, 1, -1, 64, 128, 192, 255])
        return self.dice.choice(made.lengths or COUNTS).changed(made.message, lambda length: length + change)

    def miscounted(self, made: Written) -> bytes:
        change = self.dice.choice([1, -1, 1, -1, 256, 65535])
        return self.dice.choice(COUNTS).changed(made.message, lambda count: count + change)

    def lengthened(self, made: Written) -> bytes:
        return made.message + self.some(1, 12)

    def filled(self, made: Written) -> bytes:
        """As large as a message may be, or nearly: by one record more."""
        size = self.dice.choice([LARGEST - 1, LARGEST, LARGEST + 1, LARGEST + 2]) - len(made.message) - 11
        rest = Written(b"")
        rest.add_record(other(ADDITIONAL, Name(), bytes(size)))
        return COUNTS[ADDITIONAL].changed(made.message, lambda count: count + 1) + rest.message

    def message(self) -> bytes:
        request = self.request()
        before = [self.wrong_opt, self.wrong_version, self.wrong_options, self.wrong_cookie]
        before += [self.wrong_questions, self.response]
        for _ in range(self.dice.choice([0, 0, 0, 0, 1, 1, 1, 2])):
            self.dice.choice(before)(request)
        made = request.written()
        after = [self.cut, self.cut_short, self.flipped, self.slipped, self.slipped, self.miscounted, self.lengthened]
        if self.chance(2000):
            return self.filled(made)
        return self.dice.choice(after)(made) if self.chance(3) else made.message

    def line(self) -> bytes:
        line = shown(self.message()).encode()
        return damaged(line, self.dice) if self.chance(60) else line


def root_of(request: Request) -> int:
    """Where the name of the first question has its last byte, mostly a 0."""
    return HEADER + sum(1 + len(label) for name in request.questions[:1] for label in name.labels)


def damaged(line: bytes, dice: random.Random) -> bytes:
    at = dice.randrange(len(line) + 1)
    return line[:at] + dice.choice([b"", b" ", b"x", b"0", b"-"]) + line[at + dice.randrange(2) :]


def make(count: int, seed: int, write: Write) -> None:
    maker = Maker(seed)
    for _ in range(count):
        write(maker.line() + b"\n")


def main() -> None:
    words = argparse.ArgumentParser(description=__doc__, formatter_class=argparse.RawDescriptionHelpFormatter)
    words.add_argument("--stored", metavar="PACKETS")
    words.add_argument("--random", type=int)
    words.add_argument("--seed", type=int, default=1)
    words.add_argument("--tally", action="store_true")
    asked = words.parse_args()
    if asked.stored is not None:
        store(asked.stored, sys.stdout.buffer.write)
    elif asked.random is not None:
        make(asked.random, asked.seed, sys.stdout.buffer.write)
    elif asked.tally:
        tally(sys.stdin.buffer, sys.stdout.buffer.write)
    else:
        expect(sys.stdin.buffer, sys.stdout.buffer.write)


if __name__ == "__main__":
    main()
