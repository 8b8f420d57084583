#!/usr/bin/env python3
"""Writes what the program `vectors` should print for the lines on standard input, by an independent implementation.

SipHash-2-4 is OpenSSL's (EVP_MAC "SIPHASH", OpenSSL 3 or newer), called in libcrypto. The rules of cookies and replies are
written here from document 01 alone; nothing of this repository's code or definitions is used.

    tests/expected.py <crates/vectors/stdin | cmp - crates/vectors/stdout
    tests/expected.py --random 100000 --seed 1 >lines      only makes lines: every verb and every answer, some lines bad
    tests/expected.py --tally <output                      counts the answers of each kind, those that never came too
"""
import argparse
import collections
import ctypes
import ctypes.util
import random
import sys

HEX = set(b"0123456789abcdefABCDEF")
LONGEST = 262143  # bytes of a line that `vectors` reads
LARGEST = 65535  # bytes of an OUTPUT, a BUFFER or a BODY to judge
SHORT = 64  # bytes of an ADDRESS or a BODY to keep

HEAD = bytes.fromhex("000a0018")  # option code 10, length 24
NOT_KEPT = 100  # a body to keep that is not 24 bytes: this project's own number
SERVER_HEAD = bytes.fromhex("01000000")  # version 1, reserved bytes zero
CLIENT, OPTION = 8, 28


class Param(ctypes.Structure):
    """OSSL_PARAM of openssl/core.h."""

    _fields_ = [
        ("key", ctypes.c_char_p),
        ("data_type", ctypes.c_uint),
        ("data", ctypes.c_void_p),
        ("data_size", ctypes.c_size_t),
        ("return_size", ctypes.c_size_t),
    ]


class SipHash:
    """SipHash-2-4 with a hash of eight bytes."""

    def __init__(self):
        self.lib = ctypes.CDLL(ctypes.util.find_library("crypto") or "libcrypto.so.3")
        for name in ("EVP_MAC_fetch", "EVP_MAC_CTX_new"):
            getattr(self.lib, name).restype = ctypes.c_void_p
        mac = self.lib.EVP_MAC_fetch(None, b"SIPHASH", None)
        self.context = ctypes.c_void_p(self.lib.EVP_MAC_CTX_new(ctypes.c_void_p(mac)))
        self.size = ctypes.c_uint(8)
        at, n = ctypes.cast(ctypes.byref(self.size), ctypes.c_void_p), ctypes.sizeof(self.size)
        unsigned = 2  # OSSL_PARAM_UNSIGNED_INTEGER
        self.params = (Param * 2)(Param(b"size", unsigned, at, n, 0), Param(None, 0, None, 0, 0))

    def __call__(self, key, message):
        out, n = ctypes.create_string_buffer(16), ctypes.c_size_t()
        done = (
            self.lib.EVP_MAC_init(self.context, key, ctypes.c_size_t(len(key)), self.params)
            and self.lib.EVP_MAC_update(self.context, message, ctypes.c_size_t(len(message)))
            and self.lib.EVP_MAC_final(self.context, out, ctypes.byref(n), ctypes.c_size_t(16))
        )
        if not done or n.value != 8:
            sys.exit("libcrypto has no SIPHASH")
        return out.raw[:8]


# The rules of document 01.


def server_cookie(siphash, secret, client, front, address):
    """A server cookie whose first eight bytes are given."""
    return front + siphash(secret, client + front + address)


def verdict(siphash, mode, generating, other, clock, address, body):
    """The verdict's words, and whether a good cookie may be kept; for a refusal its number."""
    if body is None:
        return ("ignored" if mode == "disabled" else "absent"), False
    if len(address) not in (4, 16):
        return 2, False
    if mode == "disabled":
        return "ignored", False
    if len(body) != 8 and not 16 <= len(body) <= 40:
        return 10, False
    client, server = body[:CLIENT], body[CLIENT:]
    if not server:
        return "client-only", False
    if len(server) != 16 or server[0] != 1:
        return "bad method", False
    front = server[:8]
    if server == server_cookie(siphash, generating, client, front, address):
        which = "generating"
    elif other and server == server_cookie(siphash, other, client, front, address):
        which = "other"
    else:
        return "bad hash", False
    age = (clock - int.from_bytes(front[4:], "big")) % 2**32
    if age >= 2**31:
        age -= 2**32
    if not -300 <= age <= 3600:
        return "bad time", False
    keeps = which == "generating" and front[1:4] == bytes(3) and 0 <= age <= 1800
    return f"good {age} {which}", keeps


def reply(mode, qdcount, found, keeps):
    """The table `What the reply carries`."""
    enforced = mode == "enforced"
    if mode == "disabled":
        return "serve none"
    if found == "absent":
        return "truncate none" if enforced else "serve none"
    if found == "client-only":
        return "badcookie fresh" if enforced and qdcount != 0 else "serve fresh"
    if found.startswith("bad "):
        return "badcookie fresh"
    return "serve kept" if keeps else "serve fresh"


def written(output, option):
    return 0, option + output[OPTION:]


def write_fresh(siphash, output, secret, clock, address, client):
    """The refusal, 0 for none, and the output afterwards."""
    if len(output) < OPTION:
        return 1, output
    if len(address) not in (4, 16):
        return 2, output
    return written(output, HEAD + client + server_cookie(siphash, secret, client, SERVER_HEAD + clock, address))


def write_kept(output, body):
    if len(output) < OPTION:
        return 1, output
    if len(body) != OPTION - len(HEAD):
        return NOT_KEPT, output
    return written(output, HEAD + body)


def written_body(buffer):
    if len(buffer) < OPTION or not buffer.startswith(HEAD):
        return b""
    return buffer[len(HEAD) : OPTION]


# Lines.


class BadLine(Exception):
    pass


def decode(field):
    """The bytes of a field."""
    if field == b"-":
        return b""
    if not field or len(field) % 2 or not set(field) <= HEX:
        raise BadLine
    return bytes.fromhex(field.decode())


def part(field, most=LARGEST):
    """An OUTPUT, ADDRESS, BODY or BUFFER."""
    got = decode(field)
    if len(got) > most:
        raise BadLine
    return got


def fixed(field, *sizes):
    """A field of one length, or of one of a few."""
    got = decode(field)
    if len(got) not in sizes:
        raise BadLine
    return got


def shown(data):
    return data.hex() or "-"


def siphash_line(siphash, key, message):
    return siphash(fixed(key, 16), decode(message)).hex()


def judge_line(siphash, mode, qdcount, generating, other, clock, address, body):
    if mode not in (b"disabled", b"enabled", b"enforced"):
        raise BadLine
    mode = mode.decode()
    qdcount = int.from_bytes(fixed(qdcount, 2), "big")
    generating, other = fixed(generating, 16), fixed(other, 0, 16)
    clock = int.from_bytes(fixed(clock, 4), "big")
    address, body = part(address, SHORT), None if body == b"none" else part(body)
    found, keeps = verdict(siphash, mode, generating, other, clock, address, body)
    return f"refused {found}" if isinstance(found, int) else f"{found} {reply(mode, qdcount, found, keeps)}"


def fresh_line(siphash, output, secret, clock, address, client):
    output, secret, clock = part(output), fixed(secret, 16), fixed(clock, 4)
    refusal, after = write_fresh(siphash, output, secret, clock, part(address, SHORT), fixed(client, 8))
    return f"{refusal} {shown(after)}"


def kept_line(_, output, body):
    refusal, after = write_kept(part(output), part(body, SHORT))
    return f"{refusal} {shown(after)}"


def body_line(_, buffer):
    return shown(written_body(part(buffer)))


VERBS = {
    b"siphash24": (siphash_line, 2),
    b"judge": (judge_line, 7),
    b"fresh": (fresh_line, 5),
    b"kept": (kept_line, 2),
    b"body": (body_line, 1),
}


def answer(line, siphash):
    """What follows a line."""
    verb, *fields = line.split(b" ")
    act, count = VERBS.get(verb, (None, None))
    if len(fields) != count:
        raise BadLine
    return act(siphash, *fields).encode()


def expect(lines, write, answered):
    """Lines and what is printed for each that is not a comment: `answered` gives it."""
    for number, line in enumerate(lines, 1):
        line = line[:-1] if line.endswith(b"\n") else line
        if len(line) > LONGEST:
            return write(b"long line %d\n" % number)
        if line == b"" or line.startswith(b"#"):
            write(line + b"\n")
            continue
        try:
            write(answered(line) + b"\n")
        except BadLine:
            write(b"bad line %d\n" % number)


# What came of the lines.


def kinds():
    """Every kind of answer, so that one which never came is seen."""
    bad = ["bad method badcookie fresh", "bad hash badcookie fresh", "bad time badcookie fresh"]
    good = ["good generating serve kept", "good generating serve fresh", "good other serve fresh"]
    served = ["refused 2", "refused 10", "client-only serve fresh", *bad, *good]
    judged = {
        "disabled": ["refused 2", "ignored serve none"],
        "enabled": ["absent serve none", *served],
        "enforced": ["absent truncate none", "client-only badcookie fresh", *served],
    }
    yield from ("bad line", "siphash24")
    for mode, answers in judged.items():
        yield from (f"judge {mode} {given}" for given in answers)
    yield from ("fresh 0", "fresh 1", "fresh 2", "kept 0", "kept 1", "kept 100", "body handed back", "body empty")


def kind(line):
    words = line.decode().split(" ")
    if words[0] == "judge":
        given = words[8:]
        if given[0] == "good":
            del given[1]
        return " ".join(words[:2] + given)
    if words[0] in ("fresh", "kept"):
        return f"{words[0]} {words[-2]}"
    if words[0] == "body":
        return "body empty" if words[2] == "-" else "body handed back"
    return " ".join(words[:2]) if words[0] in ("bad", "long") else words[0]


def tally(lines, write, kinds, kind):
    seen = collections.Counter(dict.fromkeys(kinds, 0))
    seen.update(kind(line) for line in map(bytes.rstrip, lines) if line and not line.startswith(b"#"))
    for name, count in seen.items():
        write(b"%9d %s\n" % (count, name.encode()))


# Random lines.

EDGES = [-301, -300, -299, -1, 0, 1, 1799, 1800, 1801, 3599, 3600, 3601]


class Maker:
    def __init__(self, seed):
        self.dice = random.Random(seed)
        self.siphash = SipHash()

    def some(self, n):
        return self.dice.randbytes(n)

    def chance(self, n):
        return self.dice.randrange(n) == 0

    def size(self, usual, spread):
        """A usual length, any up to a limit, or seldom one at the largest that a line may have."""
        if self.chance(2000):
            return self.dice.choice([LARGEST - 1, LARGEST, LARGEST + 1])
        return self.dice.choice([*usual, self.dice.randrange(spread)])

    def address(self):
        if self.chance(8):
            return self.some(self.size([0, 3, 5, 15, 17, SHORT, SHORT + 1], 40))
        return self.some(self.dice.choice([4, 16]))

    def output(self):
        return self.some(self.size([27, 28, 28, 29, 60], 61))

    def clock(self):
        near = self.dice.randrange(4000)
        return self.dice.choice([self.dice.randrange(2**32), 0, near, -near % 2**32, 2**31 - near, 2**31 + near])

    def age(self):
        usual = [self.dice.choice(EDGES), self.dice.randrange(-310, 3700), self.dice.randrange(0, 1801)]
        return self.dice.choice([*usual, *usual, 2**31 + self.dice.randrange(-2, 3), self.dice.randrange(2**32)])

    def front(self, timestamp):
        """Version, reserved bytes and timestamp of a server cookie."""
        version = self.dice.choice([0, 2, 255]) if self.chance(12) else 1
        reserved = bytearray(3)
        if self.chance(4):
            reserved[self.dice.randrange(3)] = self.dice.randrange(1, 256)
        elif self.chance(20):
            reserved = self.some(3)
        return bytes([version, *reserved]) + timestamp.to_bytes(4, "big")

    def body(self, secrets, timestamp, address):
        """A COOKIE body: as it should be under one of the secrets, or nearly."""
        client, front = self.some(CLIENT), self.front(timestamp)
        right = client + server_cookie(self.siphash, self.dice.choice(secrets), client, front, address)
        shape = self.dice.randrange(20)
        if shape < 2:
            return right[:CLIENT]
        if shape < 6:
            return (right + self.some(18))[: self.size([0, 7, 9, 15, 16, 23, 25, 40, 41], 43)]
        if shape < 7:
            return right[: CLIENT + 8] + self.siphash(secrets[0], client + SERVER_HEAD + front[4:] + address)
        if shape < 9:
            return flipped(right, self.dice)
        return right

    def judge(self):
        generating, other, stranger = self.some(16), self.some(16), self.some(16)
        mode = self.dice.choice(["disabled", *["enabled", "enforced"] * 4])
        qdcount = self.dice.choice([0, 0, 1, 1, 1, 2, 256, self.dice.randrange(2**16)])
        timestamp, address = self.clock(), self.address()
        clock = (timestamp + self.age()) % 2**32
        body = self.body([generating] * 5 + [other] * 3 + [stranger], timestamp, address)
        if self.chance(30):
            other = generating
        asked = ["judge", mode, f"{qdcount:04x}", generating.hex(), "-" if self.chance(6) else other.hex()]
        return [*asked, f"{clock:08x}", shown(address), "none" if self.chance(15) else shown(body)]

    def fresh(self):
        asked = ["fresh", shown(self.output()), self.some(16).hex(), f"{self.clock():08x}"]
        return [*asked, shown(self.address()), self.some(CLIENT).hex()]

    def kept(self):
        return ["kept", shown(self.output()), shown(self.some(self.size([24, 24, 24, 23, 25], 43)))]

    def written(self):
        buffer = HEAD + self.output()
        if self.chance(3):
            buffer = buffer[: self.dice.choice([0, 1, 3, 4, 27, 28, 29])]
        return ["body", shown(flipped(buffer, self.dice, 4) if self.chance(4) else buffer)]

    def hash(self):
        n = self.dice.choice([20, 32, self.dice.randrange(64), self.dice.randrange(600)])
        return ["siphash24", self.some(16).hex(), shown(self.some(n))]

    def line(self):
        verbs = [self.judge] * 10 + [self.fresh] * 3 + [self.kept] * 2 + [self.written] * 2 + [self.hash] * 3
        fields = self.dice.choice(verbs)()
        if self.chance(40):
            at = self.dice.randrange(len(fields))
            fields[at : at + 1] = self.dice.choice([[], fields[at : at + 1] * 2, ["-"], ["none"], [fields[at].upper()]])
        line = " ".join(fields).encode()
        return damaged(line, self.dice) if self.chance(40) else line


def flipped(data, dice, reach=None):
    """One bit other, among the first bytes or anywhere."""
    at = dice.randrange(8 * min(len(data), reach or len(data)) or 1)
    return data and data[: at // 8] + bytes([data[at // 8] ^ 1 << at % 8]) + data[at // 8 + 1 :]


def damaged(line, dice):
    at = dice.randrange(len(line) + 1)
    return line[:at] + dice.choice([b"", b" ", b"x", b"0"]) + line[at + dice.randrange(2) :]


def make(count, seed, write):
    maker = Maker(seed)
    for _ in range(count):
        write(maker.line() + b"\n")


def main():
    words = argparse.ArgumentParser(description=__doc__, formatter_class=argparse.RawDescriptionHelpFormatter)
    words.add_argument("--random", type=int)
    words.add_argument("--seed", type=int, default=1)
    words.add_argument("--tally", action="store_true")
    asked = words.parse_args()
    if asked.random is not None:
        make(asked.random, asked.seed, sys.stdout.buffer.write)
    elif asked.tally:
        tally(sys.stdin.buffer, sys.stdout.buffer.write, kinds(), kind)
    else:
        siphash = SipHash()
        expect(sys.stdin.buffer, sys.stdout.buffer.write, lambda line: line + b" " + answer(line, siphash))


if __name__ == "__main__":
    main()
