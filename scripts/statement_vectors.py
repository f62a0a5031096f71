#!/usr/bin/env python3
"""Prints the bytes of one statement of each kind, and where some faulty bytes are refused.

An encoder and a decoder of their own, with no line in common with the crates: their output stands in
the tests of st_words."""

import struct


def u8(n):
    return struct.pack(">B", n)


def u16(n):
    return struct.pack(">H", n)


def u32(n):
    return struct.pack(">I", n)


def value(v):
    if v is None:
        return u8(0)
    client, time, op = v
    return u8(1) + u8(client) + u32(time) + u16(len(op)) + op


def items(list_of_items):
    out = u8(len(list_of_items))
    for number, view, local, v in list_of_items:
        out += u32(number) + u32(view) + u32(local) + value(v)
    return out


def statement(identity, kind, site, *fields):
    return b"STEWARD1" + struct.pack(">Q", identity) + u8(kind) + u8(site) + b"".join(fields)


HI = (0, 1, b"hi")
ITEMS = [(4, 2, 0, None), (6, 1, 1, HI)]

VECTORS = [
    ("prepare", statement(7, 1, 0, u32(0), u32(0), u32(1), value(HI))),
    ("proposal", statement(7, 2, 1, u32(1), u32(2), u32(3), value(None))),
    ("accept", statement(7, 3, 2, u32(1), u32(3), value(HI))),
    ("local_vc", statement(7, 4, 1, u32(5))),
    ("global_vc", statement(7, 5, 2, u32(65535))),
    ("local_report", statement(7, 6, 1, u32(2), u8(3), u32(2), u32(3), items(ITEMS))),
    ("global_report", statement(7, 7, 1, u32(3), u8(0), u32(3), items(ITEMS))),
    ("local_union", statement(7, 8, 0, u32(1), u32(2), u32(3), items(ITEMS))),
    ("global_union", statement(7, 9, 2, u32(3), u32(0), items([]))),
    ("reply", statement(7, 10, 2, u8(3), u32(9), u32(4), u16(2) + b"ok")),
    ("client_update", statement(7, 11, 255, value(HI))),
]


class Refused(Exception):
    pass


class Reader:
    def __init__(self, data):
        self.data, self.at = data, 0

    def take(self, count, test=lambda raw: True):
        raw = self.data[self.at : self.at + count]
        if len(raw) < count or not test(raw):
            raise Refused(self.at)
        self.at += count
        return raw

    def number(self, count, low, high):
        in_range = lambda raw: low <= int.from_bytes(raw, "big") <= high
        return int.from_bytes(self.take(count, in_range), "big")

    def value(self, least=0):
        if self.number(1, least, 1) == 1:
            self.number(1, 0, 255)
            self.number(4, 1, TOP)
            self.take(self.number(2, 0, 1024))

    def items(self, view, local):
        base = self.number(4, 0, 2**32 - 17)
        low = base
        for _ in range(self.number(1, 0, 16)):
            low = self.number(4, low + 1, base + 16)
            self.number(4, 0, view)
            self.number(4, 0, local)
            self.value()


TOP = 2**32 - 1


def place(data):
    """Where `data` is refused, or None."""
    r = Reader(data)
    try:
        r.take(8, lambda raw: raw == b"STEWARD1")
        r.number(8, 0, 2**64 - 1)
        kind = r.number(1, 1, 11)
        r.number(1, 255 if kind == 11 else 0, 255)
        if kind in (1, 2, 3):
            r.number(4, 0, TOP)
            if kind != 3:
                r.number(4, 0, TOP)
            r.number(4, 1, TOP)
            r.value()
        elif kind in (4, 5):
            r.number(4, 1, TOP)
        elif kind == 6:
            local = r.number(4, 1, TOP)
            r.number(1, 0, 255)
            r.items(r.number(4, 0, TOP), local - 1)
        elif kind == 7:
            view = r.number(4, 1, TOP)
            r.number(1, 0, 255)
            r.items(view - 1, TOP)
        elif kind == 8:
            r.number(4, 1, TOP)
            r.items(r.number(4, 0, TOP), TOP)
        elif kind == 9:
            r.items(r.number(4, 1, TOP) - 1, TOP)
        elif kind == 10:
            r.number(1, 0, 255)
            r.number(4, 1, TOP)
            r.number(4, 1, TOP)
            r.take(r.number(2, 0, 1024))
        else:
            r.value(1)
        r.take(0, lambda raw: r.at == len(data))
    except Refused as refused:
        return refused.args[0]
    return None


def main():
    known = dict(VECTORS)
    for name, data in VECTORS:
        assert place(data) is None, name
        text = "".join(chr(b) if 32 <= b < 127 else f"\\x{b:02x}" for b in data)
        print(f'{name} {len(data)} b"{text}"')
    changed = lambda name, at, new: known[name][:at] + new + known[name][at + len(new) :]
    faults = [
        ("nothing", b""),
        ("another mark", changed("prepare", 7, b"2")),
        ("id cut short", known["prepare"][:15]),
        ("no kind", known["prepare"][:16]),
        ("kind 0", changed("prepare", 16, u8(0))),
        ("kind 12", changed("prepare", 16, u8(12))),
        ("a client's update at a site", changed("client_update", 17, u8(0))),
        ("a client's update without an update", changed("client_update", 18, u8(0))),
        ("number 0", changed("prepare", 26, u32(0))),
        ("value mark 2", changed("prepare", 30, u8(2))),
        ("time 0", changed("prepare", 32, u32(0))),
        ("1,025 bytes", changed("prepare", 36, u16(1025))),
        ("a byte cut off", known["prepare"][:-1]),
        ("a byte more", known["prepare"] + b"\0"),
        ("local view 0", changed("local_vc", 18, u32(0))),
        ("base 2^32-16", changed("local_report", 27, u32(2**32 - 16))),
        ("17 items", changed("local_report", 31, u8(17))),
        ("a number twice", changed("local_report", 45, u32(4))),
        ("a number past the window", changed("local_report", 45, u32(20))),
        ("an item of a later view", changed("local_report", 49, u32(3))),
        ("an item of this local view", changed("local_report", 53, u32(2))),
        ("an item of this view", changed("global_report", 45, u32(3))),
        ("view 0", changed("global_union", 18, u32(0))),
        ("result of 1,025 bytes", changed("reply", 27, u16(1025))),
    ]
    for name, data in faults:
        print(f"{name}: {place(data)}")


if __name__ == "__main__":
    main()
