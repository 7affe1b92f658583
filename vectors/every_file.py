#!/usr/bin/env python3
"""Tries every file: for lists of packets of sessions whose file has one or two bytes it finds all files that agree, among the
256 or 65,536 that there are, and compares with what the built program says by `sink`, `sink --both` and `check`.

usage: vectors/every_file.py [LISTS [START]]      (1,000 lists, drawn from the number 1 on; the program is that of runs.py)
"""
import os
import sys
from concurrent.futures import ThreadPoolExecutor
from random import Random

sys.dont_write_bytecode = True
from batches import Packet, combined, equation, kept_packets, packet_record, session_of, symbols_of
from reader import telling
from runs import bats


# ---- the field, by the powers of x

POWERS = [1]
while len(POWERS) < 255:
    POWERS.append(POWERS[-1] << 1 ^ (0x11D if POWERS[-1] & 0x80 else 0))
LOGARITHMS = {power: place for place, power in enumerate(POWERS)}


def product(a, b):
    return POWERS[(LOGARITHMS[a] + LOGARITHMS[b]) % 255] if a and b else 0


PRODUCTS = [[product(a, b) for b in range(256)] for a in range(256)]

# For each factor and each byte, the bytes whose product with the factor is that byte, as a set of bits.
BYTES_WITH = [[0] * 256 for factor in range(256)]
for factor, products in enumerate(PRODUCTS):
    for other, byte in enumerate(products):
        BYTES_WITH[factor][byte] |= 1 << other


# ---- trying every file

def said_of(session, packet):
    """What a packet says of each of its columns: the factors of the file's two bytes there, and their sum with them. A byte that
    stands in another column has the factor 0; what stands behind the file's bytes is zero."""
    factors = equation(session, packet)
    for column, byte in enumerate(packet.payload):
        yield [factors[i // session.t] if i < session.length and i % session.t == column else 0 for i in (0, 1)], byte


def seconds_that_agree(session, packets):
    """All files that agree with the packets: for each first byte the second bytes, as a set of bits. Where the file has one byte,
    its second is 0."""
    seconds = [(1 << 256) - 1 if session.length == 2 else 1] * 256
    for packet in packets:
        for (factor, other), byte in said_of(session, packet):
            products, sets = PRODUCTS[factor], BYTES_WITH[other]
            seconds = [some & sets[byte ^ products[first]] for first, some in enumerate(seconds)]
    return seconds


def answer_of(session, seconds):
    """`file` with the one file, `inconsistent`, or `need-more` with the symbol of the first byte in which two of the files differ."""
    firsts = [first for first, some in enumerate(seconds) if some]
    if not firsts:
        return "inconsistent", None
    if len(firsts) > 1:
        return "need-more", 0
    some = seconds[firsts[0]]
    if some & (some - 1):
        return "need-more", 1 // session.t
    return "file", bytes([firsts[0], some.bit_length() - 1])[:session.length]


# ---- lists of packets

def byte_of(random):
    """Zero more often than another byte."""
    return random.choice([0, random.randrange(256), random.randrange(256)])


def drawn_session(random):
    m, mode, t, length = random.randint(1, 4), random.choice([0, 1, 128, 129]), random.randint(1, 3), random.randint(1, 2)
    return session_of(b"BTS\1" + bytes([m, mode]) + t.to_bytes(2, "big") + length.to_bytes(8, "big")
                      + bytes(random.randrange(256) for _ in range(16)))


def drawn_packet(random, session, hidden):
    """A packet of one of four batches, of any vector. The hidden file agrees with most of them."""
    packet = Packet(random.randrange(4), bytes(byte_of(random) for _ in range(session.m)), b"")
    payload = bytearray(combined(session.t, equation(session, packet), symbols_of(session, hidden)))
    if random.randrange(6) == 0:
        payload[random.randrange(session.t)] = byte_of(random)
    return packet._replace(payload=bytes(payload))


def drawn_list(number):
    random = Random(number)
    session = drawn_session(random)
    hidden = bytes(byte_of(random) for _ in range(session.length))
    return session, [drawn_packet(random, session, hidden) for _ in range(random.randrange(6))]


# ---- comparing

def both_fault(session, seconds, opened, output):
    """What is wrong with the two files of `sink --both`. Which two they are is free."""
    length = session.length
    one, other = output[:length], output[length:]
    if any(len(file) != length or not seconds[file[0]] >> int.from_bytes(file[1:], "big") & 1 for file in (one, other)):
        return "a file doesn't agree"
    differ = next((i // session.t for i in range(length) if one[i] != other[i]), None)
    return None if differ == opened else "the files don't differ there first"


def faults_of(number):
    """The answer to the list of this number, and what the program says otherwise."""
    session, packets = drawn_list(number)
    data = session.header + b"".join(map(packet_record, packets))
    kept, seconds, faults = kept_packets(session, packets), seconds_that_agree(session, packets), []
    kind, value = answer_of(session, seconds)
    for words in (["sink"], ["sink", "--both"], ["check"]):
        said, (*expected, wanted) = bats(words, data), telling(words[0], session, packets, kept, kind, value)
        if words[1:] and kind == "need-more":
            fault, wanted = both_fault(session, seconds, value, said[2]), said[2]
            faults += [fault] if fault else []
        if list(said) != [*expected, wanted]:
            faults.append("%s says %s in place of %s" % (" ".join(words), said, (*expected, wanted)))
    return kind, ["list %d: %s" % (number, fault) for fault in faults]


def main():
    count, start = map(int, (sys.argv[1:] + ["1000", "1"][len(sys.argv) - 1:]))
    with ThreadPoolExecutor(os.cpu_count()) as pool:
        found = list(pool.map(faults_of, range(start, start + count)))
    faults = [fault for _, some in found for fault in some]
    kinds = [kind for kind, _ in found]
    counts = ", ".join("%d %s" % (kinds.count(kind), kind) for kind in ("file", "need-more", "inconsistent"))
    print("\n".join(faults + ["every_file: %d lists (%s), %d faults" % (count, counts, len(faults))]))
    sys.exit(1 if faults or not count else 0)


if __name__ == "__main__":
    main()
