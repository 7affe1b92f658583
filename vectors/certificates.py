#!/usr/bin/env python3
"""What a certificate file shows, computed a second time from docs/FORMATS.md and standing on batches.py alone. Slow and plain: a
page to check by eye.

usage: vectors/certificates.py FILE ...
"""
import struct
import sys

sys.dont_write_bytecode = True
from batches import PRODUCTS, Packet, combined, equation, session_of, symbols_of

MOST_LISTED = 8193


class Malformed(Exception):
    """The place of the first field that is cut or breaks its rule, or of the first byte behind the last field."""


# ---- the file

class Fields:
    def __init__(self, data):
        self.data, self.at = data, 0

    def take(self, size, rule=lambda field: True):
        """The next field of so many bytes, which keeps the rule."""
        field = self.data[self.at:self.at + size]
        if len(field) < size or not rule(field):
            raise Malformed(self.at)
        self.at += size
        return field

    def number(self, size, most):
        """A number of so many bytes, high byte first, which is at most this."""
        return int.from_bytes(self.take(size, lambda field: int.from_bytes(field, "big") <= most), "big")

    def end(self):
        if self.at < len(self.data):
            raise Malformed(self.at)


def is_header(header):
    m, mode, t, length = struct.unpack(">BBHQ", header[4:16])
    return header[:4] == b"BTS\1" and 1 <= m <= 32 and mode & 127 <= 1 and 1 <= t <= 2048 and length <= 4096 * t


def read(data):
    """The session, the listed packets, the kind, and what it has: the symbol or column, the files, and the rows of factors."""
    fields = Fields(data)
    session = session_of(fields.take(32, is_header))
    fields.take(1, lambda tag: tag == b"C")
    kind, count = fields.number(1, 2), fields.number(4, MOST_LISTED)
    records = [fields.take(5 + session.m + session.t, lambda record: record[:1] == b"P") for _ in range(count)]
    packets = [Packet(int.from_bytes(r[1:5], "big"), r[5:5 + session.m], r[5 + session.m:]) for r in records]
    place = [session.symbols, 0, 0][kind]
    if kind == 1:
        place = fields.number(4, session.symbols - 1)
    if kind == 2:
        place = fields.number(2, session.t - 1)
    files = [fields.take(session.length) for _ in range([1, 2, 0][kind])]
    rows = [fields.take(count) for _ in range([place, place, 1][kind])]
    fields.end()
    return session, packets, kind, place, files, rows


# ---- what it shows

def agrees(session, packet, file):
    return combined(session.t, equation(session, packet), symbols_of(session, file)) == packet.payload


def wrong_row(session, said, rows):
    """The lowest row whose sum of what the packets say isn't its own symbol alone."""
    for s, factors in enumerate(rows):
        if combined(session.symbols, factors, said) != bytes(u == s for u in range(session.symbols)):
            return s
    return None


def broken_zero(session, packets, said, column, factors):
    sums = combined(session.symbols, factors, said)
    if any(sums[s] for s in range(session.symbols) if s * session.t + column < session.length):
        return "factors"
    total = 0
    for factor, packet in zip(factors, packets):
        total ^= PRODUCTS[factor][packet.payload[column]]
    return None if total else "sum"


def broken_part(session, packets, kind, place, files, rows):
    """The first part that doesn't hold, if one doesn't."""
    said = [equation(session, packet) for packet in packets]
    if kind == 2:
        return broken_zero(session, packets, said, place, rows[0])
    for name, file in zip(["first-file", "second-file"], files):
        if not all(agrees(session, packet, file) for packet in packets):
            return name
    if kind == 1 and symbols_of(session, files[0])[place] == symbols_of(session, files[1])[place]:
        return "same"
    row = wrong_row(session, said, rows)
    return None if row is None else "row=%d" % row


def verdict(data):
    try:
        parts = read(data)
    except Malformed as malformed:
        return "bats: input at=%d malformed" % malformed.args[0]
    part = broken_part(*parts)
    if part is not None:
        return "bats: certificate broken " + part
    return ["certificate file", "certificate need-more open=%d" % parts[3], "certificate inconsistent"][parts[2]]


if __name__ == "__main__":
    for name in sys.argv[1:]:
        with open(name, "rb") as file:
            print(verdict(file.read()))
