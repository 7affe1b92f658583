#!/usr/bin/env python3
"""What `replay` and `trial` say, computed from docs/FORMATS.md by the second implementation. Slow and plain.

usage: vectors/networks.py replay [--both | --pool] < SCRIPT
       vectors/networks.py trial --number N --m N --t N --length N --batches N --relays N --loss N [--table N]
"""
import re
import struct
import sys
import tomllib

sys.dont_write_bytecode = True
from batches import (Packet, Words, combined, equation, kept_packets, options_of, packet_record, session_of, symbols_of)
from reader import MOST_KEPT, MOST_SYMBOLS, answer, inactive_count

MOST_SCRIPT = 4194304
MOST_POOL = 65536
KEYS = ["m", "t", "table", "systematic", "seed", "file", "relays", "links", "event"]


def session_with(m, t, table, systematic, seed, length):
    return session_of(b"BTS\1" + struct.pack(">BBHQ", m, table + 128 * systematic, t, length) + seed)


def coded(session, symbols, number, column):
    """The source's packet of a column of a batch."""
    vector = bytes(place == column for place in range(session.m))
    return Packet(number, vector, combined(session.t, equation(session, Packet(number, vector, b"")), symbols))


def mixed(session, seed, number, output, kept):
    """A relay's output of a batch with these kept packets."""
    factors = Words(seed, number, 1, output).bytes_at(0, len(kept))
    return Packet(number, combined(session.m, factors, [p.coefs for p in kept]),
                  combined(session.t, factors, [p.payload for p in kept]))


# ---- scripts

def is_number(value, low, high):
    return type(value) is int and low <= value <= high


def is_hex(value, digits=None):
    return type(value) is str and re.fullmatch("[0-9A-Fa-f]*", value) is not None \
        and (len(value) == digits if digits is not None else len(value) % 2 == 0)


def are_numbers(value, *ranges):
    return type(value) is list and len(value) == len(ranges) and all(is_number(v, *r) for v, r in zip(value, ranges))


def is_event(value):
    return type(value) is dict and len(value) == 1 and next(iter(value)) in ["send", "mix", "give"] \
        and are_numbers(next(iter(value.values())), (0, 2**32 - 1), (0, 2**32 - 1))


def are_links(value, relays):
    return type(value) is list and len(value) <= 256 and all(are_numbers(v, (0, relays), (1, relays + 1)) for v in value)


def wrong_key(text):
    """The first wrong key of a script, or None with its values."""
    try:
        script = tomllib.loads(text.decode())
    except (UnicodeDecodeError, tomllib.TOMLDecodeError):
        return "toml", None
    tests = {
        "m": lambda v: is_number(v, 1, 32),
        "t": lambda v: is_number(v, 1, 2048),
        "table": lambda v: is_number(v, 0, 1),
        "systematic": lambda v: type(v) is bool,
        "seed": lambda v: is_hex(v, 32),
        "file": is_hex,
        "relays": lambda v: type(v) is list and len(v) <= 16 and all(is_hex(s, 32) for s in v),
        "links": lambda v: are_links(v, len(script["relays"])),
        "event": lambda v: type(v) is list and all(map(is_event, v)),
    }
    script.setdefault("event", [])
    if any(key not in KEYS for key in script):
        return "unknown", None
    return next((key for key in KEYS if key not in script or not tests[key](script[key])), None), script


class World:
    def __init__(self, script):
        file = bytes.fromhex(script["file"])
        self.session = session_with(script["m"], script["t"], script["table"], script["systematic"],
                                    bytes.fromhex(script["seed"]), len(file))
        self.file = file
        self.seeds = [None] + [bytes.fromhex(seed) for seed in script["relays"]]
        self.links = {tuple(link) for link in script["links"]}
        self.pool = []
        self.given = [[] for _ in range(len(self.seeds) + 1)]

    def send(self, batch, column):
        if column >= self.session.m:
            return "column-too-large"
        return self.make(0, lambda: coded(self.session, symbols_of(self.session, self.file), batch, column))

    def mix(self, node, batch):
        if node > len(self.seeds):
            return "no-node"
        if node in (0, len(self.seeds)):
            return "not-a-relay"
        kept = kept_packets(self.session, [p for p in self.given[node] if p.batch == batch]).get(batch)
        if not kept:
            return "nothing-held"
        made = sum(maker == node and packet.batch == batch for maker, packet in self.pool)
        return self.make(node, lambda: mixed(self.session, self.seeds[node], batch, made, kept))

    def make(self, node, packet):
        if len(self.pool) == MOST_POOL:
            return "pool"
        self.pool.append((node, packet()))

    def give(self, place, node):
        if place >= len(self.pool):
            return "no-packet"
        if node > len(self.seeds):
            return "no-node"
        maker, packet = self.pool[place]
        if (maker, node) not in self.links:
            return "no-link"
        self.given[node].append(packet)
        if len(self.given[node]) > MOST_KEPT and sum(map(len, kept_packets(self.session, self.given[node]).values())) > MOST_KEPT:
            return "kept"


def replay(text, words):
    """Status, notes line and output of `replay` on a script."""
    if len(text) > MOST_SCRIPT:
        return 5, "bats: limit script", b""
    key, script = wrong_key(text)
    if key:
        return 9, "bats: script key=" + key, b""
    world = World(script)
    if world.session.symbols > MOST_SYMBOLS:
        return 5, "bats: limit symbols", b""
    for number, event in enumerate(script["event"]):
        (name, (first, second)), = event.items()
        cause = getattr(world, name)(first, second)
        if cause in ("kept", "pool"):
            return 5, "bats: limit " + cause, b""
        if cause:
            return 9, "bats: script event=%d %s" % (number, cause), b""
    status, said, value, counts = solved(world.session, world.given[-1])
    output = value if status == 0 else b""
    if "--pool" in words:
        output = world.session.header + b"".join(packet_record(packet) for _, packet in world.pool)
    return status, "replay: %s packets=%d %s" % (said, len(world.given[-1]), counts), output


def solved(session, packets):
    """Status, what is said of the answer, its value, and the counts behind it."""
    kept = kept_packets(session, packets)
    kind, value = answer(session, packets)
    counts = "kept=%d inactive=%d" % (sum(map(len, kept.values())), inactive_count(session, kept))
    said = {"file": "file length=%d" % session.length, "need-more": "need-more open=%s" % value}[kind]
    return ["file", "need-more"].index(kind), said, value, counts


# ---- trials

def arriving(seed, hop, loss, packets):
    words = Words(seed, hop, 3, 0)
    return [packet for place, packet in enumerate(packets) if words.pick(place, 100) >= loss]


def trial(words):
    """Status, notes and output of `trial`."""
    values = {name: int(value) for name, value in options_of(words).items()}
    number, m, batches, loss = (values[name] for name in ["--number", "--m", "--batches", "--loss"])
    start = number.to_bytes(8, "big")
    seed = start + bytes(8)
    session = session_with(m, values["--t"], values.get("--table", 0), False, seed, values["--length"])
    file = Words(seed, 0, 2, 0).bytes_at(0, session.length)
    symbols = symbols_of(session, file)
    packets = [coded(session, symbols, b, j) for b in range(batches) for j in range(m)]
    packets = arriving(seed, 0, loss, packets)
    for hop in range(1, values["--relays"] + 1):
        own = start + hop.to_bytes(4, "big") + bytes(4)
        packets = [mixed(session, own, b, n, kept) for b, kept in kept_packets(session, packets).items() for n in range(m)]
        packets = arriving(seed, hop, loss, packets)
    status, said, value, counts = solved(session, packets)
    assert status or value == file
    line = "trial number=%d symbols=%d batches=%d arrived=%d %s answer=%s\n" % (
        number, session.symbols, batches, len(packets), counts, said.split(" length")[0])
    return status, "", line.encode()


def main():
    words = sys.argv[1:]
    if words[:1] == ["replay"]:
        status, notes, output = replay(sys.stdin.buffer.read(), words)
    elif words[:1] == ["trial"]:
        status, notes, output = trial(words)
    else:
        sys.exit(__doc__)
    sys.stdout.buffer.write(output)
    if notes:
        print(notes, file=sys.stderr)
    sys.exit(status)


if __name__ == "__main__":
    main()
