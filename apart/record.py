#!/usr/bin/env python3
"""Reads records of the archive, written from docs/RECORD.md alone and apart from the proved reader.

    record.py read FILE           print the line of one record
    record.py compare PROGRAM     run PROGRAM on some hundred records, whole and damaged, and compare
"""
import random
import struct
import subprocess
import sys

LISTED = (0, 11, 12, 13, 21, 22, 23, 31, 32, 41, 42, 53, 61, 62)
SEED = 20261118
CASES = 800


class Refused(Exception):
    def __init__(self, number, place):
        super().__init__(f"refused {number} {place}")


def half(b, at):
    return struct.unpack_from("<H", b, at)[0]


def word(b, at):
    return struct.unpack_from("<I", b, at)[0]


def read_head(b):
    if len(b) < 44:
        raise Refused(11, len(b))
    for at, value in ((0, 0x47), (1, 0x52), (2, 1), (3, 0)):
        if b[at] != value:
            raise Refused(11, at)
    if b[4] > 15:
        raise Refused(11, 4)
    if b[5] > 15 or b[5] == b[4]:
        raise Refused(11, 5)
    if b[6] not in LISTED:
        raise Refused(11, 6)
    if b[7] != 0:
        raise Refused(11, 7)
    if not 1 <= half(b, 8) <= 256:
        raise Refused(11, 8)
    if half(b, 10) != 3:
        raise Refused(11, 10)


def read_pairs(b):
    text_at, text = word(b, 12), word(b, 16)
    if text_at != 36 or not 1 <= text <= 64:
        raise Refused(12, 12)
    turns_at, turns = word(b, 20), word(b, 24)
    if turns_at != 36 + text or turns % 6 or turns // 6 > half(b, 8):
        raise Refused(12, 20)
    lefts_at, lefts = word(b, 28), word(b, 32)
    if lefts_at != turns_at + turns or lefts != 8 or lefts_at + lefts != len(b):
        raise Refused(12, 28)
    return turns_at, turns // 6, lefts_at


def read_record(b):
    read_head(b)
    turns_at, count, lefts_at = read_pairs(b)
    for turn in range(count):
        if word(b, turns_at + 6 * turn + 2) > 86_400_000:
            raise Refused(13, turns_at + 6 * turn)
    for at in (lefts_at, lefts_at + 4):
        if not 1 <= word(b, at) <= 1_000_000_000:
            raise Refused(13, at)
    return f"{b[4]} {b[5]} {b[6]} {count} {word(b, lefts_at)} {word(b, lefts_at + 4)}"


def line(b):
    try:
        return read_record(b)
    except Refused as refused:
        return str(refused)


def some_record(rng):
    first = rng.randrange(16)
    second = rng.choice([e for e in range(16) if e != first])
    limit = rng.choice([1, 2, 10, 255, 256, rng.randint(1, 256)])
    count = rng.choice([0, min(1, limit), limit, rng.randint(0, limit)])
    text = rng.randbytes(rng.choice([1, 64, rng.randint(1, 64)]))
    turns = b"".join(
        struct.pack("<HI", rng.randrange(65_536), rng.choice([0, 86_400_000, rng.randint(0, 86_400_000)]))
        for _ in range(count)
    )
    lefts = [rng.choice([1, 1_000_000_000, rng.randint(1, 1_000_000_000)]) for _ in range(2)]
    a, n = 36 + len(text), len(turns)
    head = bytes([0x47, 0x52, 1, 0, first, second, rng.choice(LISTED), 0]) + struct.pack("<HH", limit, 3)
    pairs = struct.pack("<6I", 36, len(text), a, n, a + n, 8)
    return head + pairs + text + turns + struct.pack("<2I", *lefts)


def damaged(rng, record):
    b = bytearray(record)
    kind = rng.randrange(8)
    if kind == 0:
        return bytes(b[: rng.randrange(len(b) + 1)])
    if kind == 1:
        return bytes(b) + rng.randbytes(rng.choice([1, 6, 2000]))
    if kind == 2:
        at = 12 + 4 * rng.randrange(6)
        struct.pack_into("<I", b, at, rng.choice([0, 1, 65, 2**32 - 1, 2**32 - 8, 2**31, word(b, at) ^ 6]))
    elif kind == 3:
        at = rng.choice([8, 10])
        struct.pack_into("<H", b, at, rng.choice([0, 3, 256, 257, 65_535]))
    elif kind == 4:
        at = rng.choice(range(len(b) - 8, len(b) - 3, 4))
        struct.pack_into("<I", b, at, rng.choice([0, 1, 1_000_000_000, 1_000_000_001, 2**32 - 1]))
    elif kind == 5 and word(b, 24) >= 6:
        at = word(b, 20) + 6 * rng.randrange(word(b, 24) // 6) + 2
        struct.pack_into("<I", b, at, rng.choice([86_400_000, 86_400_001, 2**32 - 1]))
    elif kind == 6:
        b[rng.randrange(12)] = rng.randrange(256)
    else:
        for _ in range(rng.randint(1, 3)):
            b[rng.randrange(len(b))] ^= 1 << rng.randrange(8)
    return bytes(b)


def compare(program):
    rng = random.Random(SEED)
    cases = [b"", bytes(43), bytes(44), bytes(5000)]
    while len(cases) < CASES:
        record = some_record(rng)
        cases.append(record)
        cases.extend(damaged(rng, record) for _ in range(3))
    accepted = 0
    for number, case in enumerate(cases):
        want = line(case)
        got = subprocess.run([program], input=case, capture_output=True, check=False)
        if got.returncode != 0 or got.stdout.decode(errors="replace") != want + "\n":
            print(f"case {number}, bytes {case.hex()}")
            print(f"apart:   {want}")
            print(f"program: {got.stdout!r}, status {got.returncode}")
            return 1
        accepted += not want.startswith("refused")
    print(f"records: {len(cases)} compared, {accepted} of them whole")
    return 0


def main(words):
    if len(words) == 2 and words[0] == "read":
        with open(words[1], "rb") as file:
            print(line(file.read()))
        return 0
    if len(words) == 2 and words[0] == "compare":
        return compare(words[1])
    print(__doc__, file=sys.stderr)
    return 2


if __name__ == "__main__":
    sys.exit(main(sys.argv[1:]))
