#!/usr/bin/env python3
"""Makes the stored scripts of crates/layout, crates/layout/data with the list of their names in crates/layout/args, and that of
crates/rig, crates/rig/stdin.

Each script of layout stands at an edge of the layout of document 01, "Script and rig". Its name says which. That of the rig begins
with the paper's example and goes on for longer than two pieces of 2,048 turns.
"""
import os
import struct

CRATES = os.path.join(os.path.dirname(os.path.abspath(__file__)), "..", "crates")
FOLDER = os.path.join(CRATES, "layout")
FIELDS = {1: 3, 2: 1, 3: 1, 4: 3, 5: 1, 6: 2, 7: 2, 8: 2, 9: 1, 10: 1}
GOOD = (2, 1, 1, 0, 5, 4, 10)
EXAMPLE = [(1, 5, 0, 0), (4, 0, 1, 1), (4, 1, 0, 1)] * 2 + [
    (1, 5, 0, 0), (5, 0), (8, 0, 0), (8, 1, 0), (6, 0, 100), (8, 1, 0), (8, 2, 0), (5, 0)
]


def header(numbers=GOOD, version=1):
    return bytes([version]) + b"".join(struct.pack(">I", n) for n in numbers)


def record(kind, *fields):
    body = bytes([kind]) + b"".join(struct.pack(">I", f & 0xFFFFFFFF) for f in fields)
    return bytes([len(body)]) + body


def script(*records):
    return header() + b"".join(records)


def scripts():
    yield "empty", b""
    yield "one-byte", b"\x01"
    yield "bytes-28", header()[:28]
    yield "bytes-29", header()
    # 29 bytes of header, 6,550 records of 10 bytes, and one of 7: an unknown kind fills what is left
    long = script(*[record(6, 0, 0)] * 6550) + bytes([6, 99, 0, 0, 0, 0, 0])
    assert len(long) == 65536
    yield "bytes-65536", long
    # records have 6, 10 or 14 bytes, so the longest script that can be accepted has an odd length
    longest = script(*[record(6, 0, 0)] * 6550, record(2, 0))
    assert len(longest) == 65535
    yield "bytes-65535", longest
    yield "bytes-65537", long + b"\x00"
    yield "version-0", header(version=0)
    yield "version-2", header(version=2)
    yield "version-0-and-servers-5", header((5,) + GOOD[1:], 0)
    names = ["servers", "clients", "addresses", "skew", "detection", "mclt", "retention"]
    bounds = [(2, 4), (1, 32), (1, 32), (0, 1000), (1, 10000), (1, 1000000), (0, 1000000)]
    for i, (name, (low, high)) in enumerate(zip(names, bounds)):
        for n in [low, high, low - 1, high + 1]:
            if n >= 0:
                yield "%s-%d" % (name, n), header(GOOD[:i] + (n,) + GOOD[i + 1:])
    yield "servers-5-and-a-lone-byte", header((5,) + GOOD[1:]) + b"\x01"
    yield "lone-last-byte", script(record(2, 0)) + b"\x05"
    yield "lone-zero-byte", script(record(2, 0)) + b"\x00"
    yield "length-0-then-good", script() + b"\x00" + record(2, 0)
    yield "one-past-the-end", script() + record(2, 0)[:-1]
    yield "up-to-the-end", script(record(2, 0))
    for kind in [0, 11, 255]:
        yield "kind-%d-length-1" % kind, script(bytes([1, kind]))
        yield "kind-%d-length-255" % kind, script(bytes([255, kind]) + bytes(254))
        yield "kind-%d-past-the-end" % kind, script(bytes([255, kind]) + bytes(253))
    for kind, n in FIELDS.items():
        good = record(kind, *([1] if kind == 1 else [0]), *[0] * (n - 1))
        yield "kind-%d" % kind, script(good)
        yield "kind-%d-a-byte-more" % kind, script(bytes([good[0] + 1]) + good[1:] + b"\x00")
        yield "kind-%d-a-byte-less" % kind, script(bytes([good[0] - 1]) + good[1:-1])
        yield "kind-%d-alone" % kind, script(bytes([1, kind]))
    for d in [0, 1, 100000, 100001]:
        yield "d-%d" % d, script(record(1, d, 0, 0))
    for e in [2000, 2001, -2000, -2001, 2**31 - 1, -(2**31)]:
        yield "e-%d" % e, script(record(1, 1, 0, e))
    yield "party-of-a-pass-huge", script(record(1, 1, 2**32 - 1, 0))
    for n in [0, 1, 2, 256]:
        yield "says-%d" % n, script(record(4, 0, 1, n))
        yield "keep-%d" % n, script(record(8, 0, n))
    for t in [2000000000, 2000000001]:
        yield "request-wants-%d" % t, script(record(6, 0, t))
        yield "renew-wants-%d" % t, script(record(7, 0, t))
    yield "5-before-3", script(record(1, 0, 0, 0)) + b"\x00"
    yield "4-before-5", script(bytes([1, 99]), record(1, 0, 0, 0))
    yield "3-before-4", script() + b"\x00" + bytes([1, 99])
    yield "wrong-length-and-field", script(bytes([14, 1]) + bytes(13))
    paper = script(*[record(*s) for s in EXAMPLE])
    assert len(paper) == 189
    yield "paper", paper


def long_run():
    # five ticks, a notice each way, and cleanups
    turn = [(1, 5, 0, 0), (4, 0, 1, 1), (4, 1, 0, 1)] + [(10, 0), (10, 1)] * 4
    return script(*[record(*s) for s in EXAMPLE + turn * 450])


def main():
    data = os.path.join(FOLDER, "data")
    os.makedirs(data, exist_ok=True)
    for old in os.listdir(data):
        os.remove(os.path.join(data, old))
    names = []
    for name, content in scripts():
        assert name not in names, name
        names.append(name)
        with open(os.path.join(data, name), "wb") as f:
            f.write(content)
    with open(os.path.join(FOLDER, "args"), "w") as f:
        f.write("".join(n + "\n" for n in names))
    with open(os.path.join(CRATES, "rig", "stdin"), "wb") as f:
        f.write(long_run())


if __name__ == "__main__":
    main()
