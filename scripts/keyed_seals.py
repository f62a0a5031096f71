#!/usr/bin/env python3
"""Keyed seals by the definition, with the standard library alone: the values of the tests
of st_seal and st_sealing.

A party's secret is SHA-256 of 01, the seed and the party's two bytes (site and index, or ff and
client). A seal with leaf k is k as four bytes, big-endian, and SHA-256 of the secret, those four bytes
and the sealed bytes.
"""

from hashlib import sha256

ZEROS = bytes(32)
COUNTED = bytes(range(32))

# deployment 7's Prepare, of site 0 and views 0, that number 1 holds a no-op
PREPARE = b"STEWARD1" + (7).to_bytes(8, "big") + bytes.fromhex("0100" + "00000000" * 2 + "00000001" + "00")

CASES = [
    ("server 0.0, leaf 0, no bytes", ZEROS, (0, 0), 0, b""),
    ("client 0, leaf 0, text", ZEROS, (0xFF, 0), 0, b"STEWARD1"),
    ("server 6.6, the last leaf, text", COUNTED, (6, 6), 2**20 - 1, b"STEWARD1"),
    ("server 6.6, leaf 2^32-1, text", COUNTED, (6, 6), 2**32 - 1, b"STEWARD1"),
    ("server 0.0, leaf 3, a Prepare", ZEROS, (0, 0), 3, PREPARE),
]


def keyed_seal(seed, party, leaf, sealed):
    secret = sha256(b"\x01" + seed + bytes(party)).digest()
    first = leaf.to_bytes(4, "big")
    return first + sha256(secret + first + sealed).digest()


for name, seed, party, leaf, sealed in CASES:
    seal = keyed_seal(seed, party, leaf, sealed)
    print(name)
    for row in range(0, 36, 12):
        print("    " + " ".join(f"0x{byte:02x}," for byte in seal[row : row + 12]))
