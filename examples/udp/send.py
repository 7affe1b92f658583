#!/usr/bin/env python3
"""Sends the packet file on standard input in datagrams to a port of this machine, the header and one record in each. Of the
datagrams some are left out, some are sent twice, and they leave in another order, as a seed says. At last the header goes
alone, some times: nothing more comes.

usage: send.py PORT SEED
"""
import random
import socket
import sys
import time

HEADER_SIZE = 32
LOST, REPEATED, HELD_BACK, ENDS = 0.1, 0.05, 16, 5


def records(stream):
    """The header, and then each packet record. Repeats of the header are left out, since each datagram has it."""
    header = stream.read(HEADER_SIZE)
    size = 5 + header[4] + int.from_bytes(header[6:8], "big")
    yield header
    while first := stream.read(1):
        rest = stream.read((size if first == b"P" else HEADER_SIZE) - 1)
        if first == b"P":
            yield first + rest


def shuffled(items, chance):
    """The items, fewer and more, in another order: each waits among up to so many others, one of which goes."""
    waiting = []
    for item in items:
        if chance.random() >= LOST:
            waiting.append(item)
        if chance.random() < REPEATED:
            waiting.append(item)
        while len(waiting) > HELD_BACK:
            yield waiting.pop(chance.randrange(len(waiting)))
    chance.shuffle(waiting)
    yield from waiting


def main():
    port, seed = int(sys.argv[1]), int(sys.argv[2])
    items = records(sys.stdin.buffer)
    header = next(items)
    sent = 0
    with socket.socket(socket.AF_INET, socket.SOCK_DGRAM) as out:
        out.connect(("127.0.0.1", port))
        for record in shuffled(items, random.Random(seed)):
            out.send(header + record)
            sent += 1
            if sent % 16 == 0:
                time.sleep(0.002)  # so that the receiver's buffer isn't overrun
        for _ in range(ENDS):
            time.sleep(0.02)
            try:
                out.send(header)
            except ConnectionRefusedError:
                break  # the receiver has seen one end and is gone
    print("send: datagrams=%d" % sent, file=sys.stderr)


main()
