#!/usr/bin/env python3
"""Seals of RFC 8554 (LM-OTS, LMS, HSS) over SHA-256 by the standard's formulas, with the standard
library alone: the values of the tests of st_lmots, st_lms, st_hss and st_hss_seal.

Where the standard leaves a choice: secrets are made from a seed (its appendix A), the randomizer of a
leaf is C = SHA-256(05, SEED, I, q), and the second tree under leaf q of the first has
SEED' = SHA-256(03, SEED, q) and the first 16 bytes of SHA-256(04, SEED, q) as I'. A party's key, in a
deployment with seed S, has SEED = SHA-256(01, S, P) and the first 16 bytes of SHA-256(02, S, P) as I; its
bytes P are site and index, or ff and client.
"""

from hashlib import sha256

OTS = {1: (1, 265, 7), 2: (2, 133, 6), 3: (4, 67, 4), 4: (8, 34, 0)}  # type: (w, p, ls)
HEIGHTS = {5: 5, 6: 10, 7: 15, 8: 20, 9: 25}


def h(*parts):
    return sha256(b"".join(parts)).digest()


def u8(n):
    return n.to_bytes(1, "big")


def u16(n):
    return n.to_bytes(2, "big")


def u32(n):
    return n.to_bytes(4, "big")


def coef(s, i, w):
    return (2**w - 1) & (s[i * w // 8] >> (8 - (w * (i % (8 // w)) + w)))


def checksum(s, w, ls):
    return sum(2**w - 1 - coef(s, i, w) for i in range(256 // w)) << ls


def chain(i, q, n, value, start, end):
    for j in range(start, end):
        value = h(i, u32(q), u16(n), u8(j), value)
    return value


def secret(i, q, n, seed):
    return h(i, u32(q), u16(n), u8(0xFF), seed)


def ots_key(kind, i, q, seed):
    w, p, _ = OTS[kind]
    ends = [chain(i, q, n, secret(i, q, n, seed), 0, 2**w - 1) for n in range(p)]
    return h(i, u32(q), u16(0x8080), *ends)


def digits(kind, i, q, c, message):
    w, p, ls = OTS[kind]
    digest = h(i, u32(q), u16(0x8181), c, message)
    whole = digest + u16(checksum(digest, w, ls))
    return [coef(whole, n, w) for n in range(p)]


def ots_seal(kind, i, q, seed, message):
    c = h(u8(5), seed, i, u32(q))
    values = [
        chain(i, q, n, secret(i, q, n, seed), 0, a)
        for n, a in enumerate(digits(kind, i, q, c, message))
    ]
    return u32(kind) + c + b"".join(values)


def candidate(kind, i, q, message, signature):
    w = OTS[kind][0]
    c = signature[4:36]
    ends = [
        chain(i, q, n, signature[36 + 32 * n : 68 + 32 * n], a, 2**w - 1)
        for n, a in enumerate(digits(kind, i, q, c, message))
    ]
    return h(i, u32(q), u16(0x8080), *ends)


class Tree:
    def __init__(self, kind, ots, i, seed):
        self.kind, self.ots, self.i, self.seed = kind, ots, i, seed
        self.leaves = 2 ** HEIGHTS[kind]
        self.nodes = {}
        for r in range(2 * self.leaves - 1, 0, -1):
            if r >= self.leaves:
                below = u16(0x8282) + ots_key(ots, i, r - self.leaves, seed)
            else:
                below = u16(0x8383) + self.nodes[2 * r] + self.nodes[2 * r + 1]
            self.nodes[r] = h(i, u32(r), below)

    def key(self):
        return u32(self.kind) + u32(self.ots) + self.i + self.nodes[1]

    def seal(self, q, message):
        r = self.leaves + q
        path = b""
        while r > 1:
            path += self.nodes[r ^ 1]
            r //= 2
        return u32(q) + ots_seal(self.ots, self.i, q, self.seed, message) + u32(self.kind) + path


def second_tree(tree, q):
    seed = h(u8(3), tree.seed, u32(q))
    i = h(u8(4), tree.seed, u32(q))[:16]
    return Tree(tree.kind, tree.ots, i, seed)


class HssKey:
    def __init__(self, kind, ots, levels, i, seed):
        self.levels, self.first = levels, Tree(kind, ots, i, seed)

    def key(self):
        return u32(self.levels) + self.first.key()

    def seal(self, index, message):
        if self.levels == 1:
            return u32(0) + self.first.seal(index, message)
        q, leaf = divmod(index, self.first.leaves)
        second = second_tree(self.first, q)
        return u32(1) + self.first.seal(q, second.key()) + second.key() + second.seal(leaf, message)


def server(site, index):
    return u8(site) + u8(index)


def client(c):
    return u8(0xFF) + u8(c)


def party_key(kind, ots, levels, s, party):
    return HssKey(kind, ots, levels, h(u8(2), s, party)[:16], h(u8(1), s, party))


def show(name, data):
    print(name)
    for row in range(0, len(data), 12):
        print("    " + " ".join(f"0x{byte:02x}," for byte in data[row : row + 12]))


I = bytes(range(16))
SEED = bytes(range(32, 64))
TEXT = b"STEWARD1"

if __name__ == "__main__":
    for kind in OTS:
        seal = ots_seal(kind, I, 3, SEED, TEXT)
        assert candidate(kind, I, 3, TEXT, seal) == ots_key(kind, I, 3, SEED)
        show(f"SHA-256 of the signature of type {kind}, {len(seal)} bytes", h(seal))
        show(f"K of type {kind}", ots_key(kind, I, 3, SEED))
    tree = Tree(5, 3, I, SEED)
    show("LMS key of types 5 and 3", tree.key())
    show(f"SHA-256 of the LMS signature of leaf 31, {len(tree.seal(31, TEXT))} bytes", h(tree.seal(31, TEXT)))
    one = HssKey(5, 3, 1, I, SEED)
    show("HSS key of one level, types 5 and 3", one.key())
    show(f"SHA-256 of its seal at 31, {len(one.seal(31, TEXT))} bytes", h(one.seal(31, TEXT)))
    two = HssKey(5, 3, 2, I, SEED)
    show(f"SHA-256 of the seal of two levels at 70, {len(two.seal(70, TEXT))} bytes", h(two.seal(70, TEXT)))
    deployment = bytes(range(32))
    cases = [("server 1.0", server(1, 0), 1, 3), ("server 1.0", server(1, 0), 2, 70), ("client 1", client(1), 1, 31)]
    for name, party, levels, leaf in cases:
        key = party_key(5, 3, levels, deployment, party)
        seal = key.seal(leaf, TEXT)
        show(f"HSS key of {name} of the deployment, {levels} levels, types 5 and 3", key.key())
        show(f"SHA-256 of its seal with leaf {leaf}, {len(seal)} bytes", h(seal))
