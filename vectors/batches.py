"""Batches of a session, and what a source and a relay send, made from docs/FORMATS.md and standing alone: the field, the words
of a key, generators, kept packets. Slow and plain.
"""
import struct
from functools import lru_cache
from typing import NamedTuple

DEGREES = [
    [(12, 100), (16, 250), (20, 200), (26, 150), (36, 120), (52, 90), (80, 60), (128, 30)],
    [(1, 20), (2, 480), (3, 170), (4, 90), (6, 80), (10, 70), (20, 50), (40, 40)],
]


# ---- the field of 256 elements, and rows of them

def times(a, b):
    product = 0
    while b:
        if b & 1:
            product ^= a
        a = a << 1 ^ (0x11D if a & 0x80 else 0)
        b >>= 1
    return product


PRODUCTS = [bytes(times(a, b) for b in range(256)) for a in range(256)]
INVERSES = [0] + [PRODUCTS[a].index(1) for a in range(1, 256)]


def scaled(factor, row):
    return row.translate(PRODUCTS[factor])


def plus(row, other):
    return (int.from_bytes(row, "big") ^ int.from_bytes(other, "big")).to_bytes(len(row), "big")


def combined(width, factors, rows):
    """The sum of the rows, each times its factor."""
    total = bytes(width)
    for factor, row in zip(factors, rows):
        total = plus(total, scaled(factor, row))
    return total


def dot(row, other):
    """The sum of the products, place by place."""
    total = 0
    for a, b in zip(row, other):
        total ^= PRODUCTS[a][b]
    return total


def reduce(rows, width):
    """The rows, reduced in the first `width` places: first those with a pivot, then the others. And the pivots' places."""
    rows, pivots = list(rows), []
    for place in range(width):
        done = len(pivots)
        found = next((i for i in range(done, len(rows)) if rows[i][place]), None)
        if found is None:
            continue
        pivot_row = scaled(INVERSES[rows[found][place]], rows.pop(found))
        rows = [plus(row, scaled(row[place], pivot_row)) if row[place] else row for row in rows]
        rows.insert(done, pivot_row)
        pivots.append(place)
    return rows, pivots


# ---- the words of a key

def chacha_block(key, counter):
    start = [*struct.unpack("<4I", b"expand 32-byte k"), *struct.unpack("<8I", key), counter, 0, 0, 0]
    state = list(start)

    def add_and_turn(a, b, c, by):
        state[a] = state[a] + state[b] & 0xFFFFFFFF
        mixed = state[c] ^ state[a]
        state[c] = (mixed << by | mixed >> (32 - by)) & 0xFFFFFFFF

    for _ in range(10):
        for a, b, c, d in [(0, 4, 8, 12), (1, 5, 9, 13), (2, 6, 10, 14), (3, 7, 11, 15),
                           (0, 5, 10, 15), (1, 6, 11, 12), (2, 7, 8, 13), (3, 4, 9, 14)]:
            add_and_turn(a, b, d, 16)
            add_and_turn(c, d, b, 12)
            add_and_turn(a, b, d, 8)
            add_and_turn(c, d, b, 7)
    return struct.pack("<16I", *(a + b & 0xFFFFFFFF for a, b in zip(state, start)))


class Words:
    """The words of a key, and their bytes, the lowest first."""

    def __init__(self, seed, first, kind, second):
        self.key = seed + struct.pack(">IBI", first, kind, second) + bytes(7)
        self.known = b""

    def bytes_at(self, start, size):
        while len(self.known) < start + size:
            self.known += chacha_block(self.key, len(self.known) // 64)
        return self.known[start:start + size]

    def pick(self, place, below):
        return int.from_bytes(self.bytes_at(4 * place, 4), "little") * below >> 32


# ---- sessions, batches and packets

class Session(NamedTuple):
    header: bytes
    m: int
    t: int
    length: int
    symbols: int
    systematic: bool
    table: int
    seed: bytes


class Packet(NamedTuple):
    batch: int
    coefs: bytes
    payload: bytes


def session_of(header):
    m, mode, t, length = struct.unpack(">BBHQ", header[4:16])
    return Session(header, m, t, length, -(-length // t), mode >= 128, mode & 127, header[16:])


def degree_at(table, number):
    for degree, weight in DEGREES[table]:
        if number < weight:
            return degree
        number -= weight


@lru_cache(maxsize=None)
def batch_of(session, number):
    """The contributors of a batch, and the rows of its generator, one a contributor."""
    first = number * session.m
    if session.systematic and first < session.symbols:
        contributors = list(range(first, min(first + session.m, session.symbols)))
        return contributors, [bytes(k == j for j in range(session.m)) for k in range(len(contributors))]
    words = Words(session.seed, number, 0, 0)
    degree = min(session.symbols, degree_at(session.table, words.pick(0, 1000)))
    unchosen = list(range(session.symbols))
    contributors = [unchosen.pop(words.pick(1 + i, session.symbols - i)) for i in range(degree)]
    entries = words.bytes_at(4 * (1 + degree), degree * session.m)
    return contributors, [entries[k * session.m:(k + 1) * session.m] for k in range(degree)]


def equation(session, packet):
    """How much of each symbol is in a packet, if it is what its batch and its vector say."""
    factors = bytearray(session.symbols)
    for contributor, row in zip(*batch_of(session, packet.batch)):
        factors[contributor] = dot(packet.coefs, row)
    return bytes(factors)


def symbols_of(session, file):
    padded = file + bytes(session.symbols * session.t - session.length)
    return [padded[s * session.t:(s + 1) * session.t] for s in range(session.symbols)]


def kept_packets(session, packets):
    """Of each batch, numbers rising, the packets whose vectors are no combination of those of earlier ones."""
    kept = {}
    for packet in packets:
        before = kept.setdefault(packet.batch, [])
        vectors = [other.coefs for other in before] + [packet.coefs]
        if len(reduce(vectors, session.m)[1]) > len(before):
            before.append(packet)
    return {number: kept[number] for number in sorted(kept) if kept[number]}


# ---- what is sent

def options_of(words):
    """The values of options by their names; a flag's value is true."""
    following = words[1:] + ["--"]
    return {word: True if after.startswith("--") else after for word, after in zip(words, following) if word[:2] == "--"}


def packet_record(packet):
    return b"P" + packet.batch.to_bytes(4, "big") + packet.coefs + packet.payload


def source(file, words):
    options = options_of(words)
    mode = int(options.get("--table", 0)) + 128 * ("--systematic" in options)
    shape = struct.pack(">BBHQ", int(options["--m"]), mode, int(options["--t"]), len(file))
    session = session_of(b"BTS\1" + shape + bytes.fromhex(options["--seed"]))
    symbols, first, records = symbols_of(session, file), int(options.get("--from", 0)), [session.header]
    for number in range(first, first + int(options["--batches"])):
        for j in range(session.m):
            vector = bytes(place == j for place in range(session.m))
            factors = equation(session, Packet(number, vector, b""))
            records.append(packet_record(Packet(number, vector, combined(session.t, factors, symbols))))
    return b"".join(records)


def relay(session, packets, words):
    options = options_of(words)
    outputs = [session.header]
    for number, kept in kept_packets(session, packets).items():
        for n in range(int(options["--count"]) + (len(kept) if options["--rule"] == "extra" else 0)):
            factors = Words(bytes.fromhex(options["--seed"]), number, 1, n).bytes_at(0, len(kept))
            coefs = combined(session.m, factors, [p.coefs for p in kept])
            outputs.append(packet_record(Packet(number, coefs, combined(session.t, factors, [p.payload for p in kept]))))
    return b"".join(outputs)
