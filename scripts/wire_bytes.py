#!/usr/bin/env python3
"""Prints the bytes of messages, where some faulty bytes are refused, and where the seals stand.

An encoder and a decoder of their own, over those of statements and with no line in common with the
crates: their output stands in the tests of st_wire."""

import struct
from hashlib import sha256

from statement_vectors import items, u8, u16, u32, value


# ---- spelling


def text(seal):
    return u16(len(seal)) + seal


def core(kind, site, *fields):
    return u8(kind) + u8(site) + b"".join(fields)


def signed(index, seal):
    return u8(index) + text(seal)


def quorum(*shares):
    return u8(len(shares)) + b"".join(signed(*share) for share in shares)


def sites(*words):
    return u8(len(words)) + b"".join(u8(site) + word for site, word in words)


def proof(view, v, words):
    return u32(view) + value(v) + words


def message(identity, kind, *parts):
    return b"STM1" + struct.pack(">Q", identity) + u8(kind) + b"".join(parts)


HI = (0, 1, b"hi")
PREPARE = core(1, 0, u32(0), u32(0), u32(1), value(HI))
PROPOSAL = core(2, 0, u32(0), u32(0), u32(1), value(None))
ACCEPT = core(3, 2, u32(1), u32(3), value(HI))
LOCAL_VC = core(4, 1, u32(5))
REPLY = core(10, 2, u8(3), u32(9), u32(4), text(b"ok"))
PROOF = proof(2, HI, sites((0, quorum((1, b"p"), (3, b"qq"))), (4, quorum((0, b"r")))))


def local_report(index, base, list_of_items, backing, order):
    body = core(6, 1, u32(2), u8(index), u32(2), u32(base), items(list_of_items))
    return body + text(b"s%d" % index) + b"".join(backing) + order


REPORT = local_report(3, 3, [(4, 2, 0, None)], [quorum((0, b"i"), (2, b"j"))], PROOF)
EMPTY = [local_report(index, 0, [], [], b"") for index in (0, 2)]

VECTORS = [
    ("update", message(7, 1, value(HI), text(b"seal"))),
    ("assign", message(7, 2, u32(0), u32(0), u32(1), value(HI), text(b"cl"), signed(0, b"rep"))),
    ("assign_noop", message(7, 2, u32(4), u32(0), u32(1), value(None), text(b""), signed(1, b"rep"))),
    ("share", message(7, 3, PREPARE, signed(2, b"ab"))),
    ("certificate", message(7, 4, ACCEPT, quorum((0, b"a"), (1, b"b"), (3, b"c")))),
    ("order_proof", message(7, 5, u32(9), PROOF)),
    ("report", message(7, 6, REPORT)),
    ("bundle", message(7, 7, u8(2), *EMPTY)),
    ("local_view", message(7, 8, u8(0), LOCAL_VC, quorum((0, b"x"), (2, b"y")))),
    ("view", message(7, 8, u8(1), u32(6), sites((1, quorum((0, b"m"))), (2, quorum((0, b"n")))))),
    ("ask", message(7, 9, u8(1), u8(2), u32(3), u32(4), u32(5))),
    ("reply", message(7, 10, REPLY, signed(1, b"done"))),
]


# ---- reading, with the first fault


class Refused(Exception):
    pass


class Reader:
    def __init__(self, data):
        self.data, self.at = data, 0
        self.seals = []

    def take(self, count):
        if len(self.data) - self.at < count:
            raise Refused(self.at)
        self.at += count
        return self.data[self.at - count : self.at]

    def number(self, width, low=0, high=2**64):
        start = self.at
        n = int.from_bytes(self.take(width), "big")
        if not low <= n <= high:
            raise Refused(start)
        return n

    def text(self, low, high):
        return self.take(self.number(2, low, high))

    def seal(self, low=1, high=5076):
        seal = self.text(low, high)
        if seal:
            self.seals.append((self.at - len(seal), seal))

    def update(self):
        self.number(1)
        self.number(4, 1)
        self.text(0, 1024)

    def value(self):
        kind = self.number(1, 0, 1)
        if kind:
            self.update()
        return kind

    def items(self, base, most_view, most_local=2**32):
        last, count = base, self.number(1, 0, 16)
        for _ in range(count):
            last = self.number(4, last + 1, base + 16)
            self.number(4, 0, most_view)
            self.number(4, 0, most_local)
            self.value()
        return count

    def core(self, kinds, narrow=None):
        start = self.at
        kind = self.number(1)
        if kind not in kinds or (narrow and kind != narrow[0]):
            raise Refused(start)
        if kind == 11:
            raise Refused(start)
        if kind in (6, 7):
            return self.report_core(kind, narrow)
        self.number(1)
        if kind in (1, 2, 3):
            self.number(4)
            if kind != 3:
                self.number(4)
            self.number(4, 1)
            self.value()
        elif kind in (4, 5):
            self.number(4, 1)
        elif kind == 8:
            self.number(4, 1)
            greatest = self.number(4)
            self.items(self.number(4, 0, 2**32 - 17), greatest)
        elif kind == 9:
            view = self.number(4, 1)
            self.items(self.number(4, 0, 2**32 - 17), view - 1)
        else:
            self.number(1)
            self.number(4, 1)
            self.number(4, 1)
            self.text(0, 1024)

    def report_core(self, kind, narrow):
        _, low_site, high_site, low, high, low_index = narrow or (kind, 0, 255, 1, 2**32 - 1, 0)
        site = self.number(1, low_site, high_site)
        view = self.number(4, low, high)
        index = self.number(1, low_index, 255)
        if kind == 6:
            most_view, most_local = self.number(4), view - 1
        else:
            most_view, most_local = view - 1, 2**32
        base = self.number(4, 0, 2**32 - 17)
        count = self.items(base, most_view, most_local)
        return (kind, site, site, view, view, index + 1), base, count

    def signed(self, low=0):
        index = self.number(1, low, 255)
        self.seal()
        return index + 1

    def quorum(self):
        low = 0
        for _ in range(self.number(1, 1)):
            low = self.signed(low)

    def sites(self):
        low = 0
        for _ in range(self.number(1, 1)):
            low = self.number(1, low, 255) + 1
            self.quorum()

    def proof(self):
        self.number(4)
        self.value()
        self.sites()

    def report(self, narrow=None):
        narrow, base, count = self.core((6, 7), narrow)
        self.seal()
        for _ in range(count):
            self.quorum()
        if base:
            self.proof()
        return narrow

    def message(self):
        if self.data[:4] != b"STM1":
            raise Refused(0)
        self.at = 4
        self.number(8)
        kind = self.number(1, 1, 10)
        if kind == 1:
            self.number(1, 1, 1)
            self.update()
            self.seal()
        elif kind == 2:
            self.number(4)
            self.number(4)
            self.number(4, 1)
            self.seal(0, 5076 if self.value() else 0)
            self.signed()
        elif kind == 3:
            self.core((1, 2, 3, 4, 5, 8, 9))
            self.signed()
        elif kind == 4:
            self.core((2, 3, 5, 8, 9))
            self.quorum()
        elif kind == 5:
            self.number(4, 1)
            self.proof()
        elif kind == 6:
            self.report()
        elif kind == 7:
            narrow = None
            for _ in range(self.number(1, 1)):
                narrow = self.report(narrow)
        elif kind == 8:
            if self.number(1, 0, 1):
                self.number(4, 1)
                self.sites()
            else:
                self.core((4,))
                self.quorum()
        elif kind == 9:
            self.take(14)
        else:
            self.core((10,))
            self.signed()
        if self.at != len(self.data):
            raise Refused(self.at)


def place(data):
    try:
        Reader(data).message()
        return None
    except Refused as fault:
        return fault.args[0]


def rust(data):
    out = ""
    for byte in data:
        if byte == 0:
            out += "\\0"
        elif 32 <= byte < 127 and byte not in (34, 92):
            out += chr(byte)
        else:
            out += "\\x%02x" % byte
    return out


# what is changed where
CHANGES = [
    ("update", 3, b"2"),
    ("update", 12, b"\0"),
    ("update", 12, b"\x0b"),
    ("update", 13, b"\0"),
    ("update", 23, b"\0\0"),
    ("update", 23, b"\x13\xd5"),
    ("assign", 21, b"\0\0\0\0"),
    ("assign_noop", 26, b"\0\x01"),
    ("share", 13, b"\x06"),
    ("share", 13, b"\x0b"),
    ("certificate", 13, b"\x04"),
    ("certificate", 33, b"\0"),
    ("certificate", 38, b"\0"),
    ("order_proof", 13, b"\0\0\0\0"),
    ("order_proof", 31, b"\0"),
    ("order_proof", 38, b"\x01"),
    ("order_proof", 43, b"\0"),
    ("report", 13, b"\x03"),
    ("report", 46, b"\0"),
    ("bundle", 13, b"\0"),
    ("bundle", 34, b"\x07"),
    ("bundle", 35, b"\x02"),
    ("bundle", 36, b"\0\0\0\x01"),
    ("bundle", 36, b"\0\0\0\x03"),
    ("bundle", 40, b"\0"),
    ("local_view", 13, b"\x02"),
    ("local_view", 14, b"\x05"),
    ("view", 14, b"\0\0\0\0"),
    ("reply", 13, b"\x03"),
]

if __name__ == "__main__":
    for name, data in VECTORS:
        assert place(data) is None, name
        reader = Reader(data)
        reader.message()
        print(f'{name} ({len(data)} bytes)\n    b"{rust(data)}"\n    seals at {reader.seals}')
    for name, at, new in CHANGES:
        data = dict(VECTORS)[name]
        changed = data[:at] + new + data[at + len(new) :]
        print(f'    ({name.upper()}, {at}, b"{rust(new)}", {place(changed)}),')

    # the Update of deployment 7 that client 0 seals with leaf 0, the seed being zeros
    statement = b"STEWARD1" + struct.pack(">Q", 7) + u8(11) + u8(255) + value(HI)
    secret = sha256(b"\x01" + bytes(32) + b"\xff\0").digest()
    first = message(7, 1, value(HI), text(u32(0) + sha256(secret + u32(0) + statement).digest()))
    print(f'smallest ({len(first)} bytes)\n    {first[:25].hex()} {first[25:29].hex()} {first[29:].hex()}\n    b"{rust(first)}"')
    print("cut", place(first[:-1]), "longer", place(first + b"\0"))
