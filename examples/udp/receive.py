#!/usr/bin/env python3
"""Takes datagrams on a free port of this machine, whose number it writes into a file, and writes a packet file on standard
output: the header of the first, and the record of each, in the order in which they come. A datagram of another session or
of another length is dropped. Ends at a datagram that is a header alone, or when nothing more has come for some seconds.

usage: receive.py PORT_FILE
"""
import os
import socket
import sys

HEADER_SIZE = 32
SECONDS_TO_FIRST, SECONDS_BETWEEN = 30, 5


def listen(port_file):
    """A socket on a free port. The file with the number appears whole."""
    into = socket.socket(socket.AF_INET, socket.SOCK_DGRAM)
    into.setsockopt(socket.SOL_SOCKET, socket.SO_RCVBUF, 1 << 20)
    into.bind(("127.0.0.1", 0))
    with open(port_file + ".part", "w", encoding="ascii") as part:
        part.write("%d\n" % into.getsockname()[1])
    os.rename(port_file + ".part", port_file)
    return into


def datagrams(into):
    into.settimeout(SECONDS_TO_FIRST)
    while True:
        try:
            yield into.recv(1 << 16)
        except socket.timeout:
            return
        into.settimeout(SECONDS_BETWEEN)


def main():
    header, size, taken, dropped = None, 0, 0, 0
    out = sys.stdout.buffer
    with listen(sys.argv[1]) as into:
        for datagram in datagrams(into):
            if header is None and datagram[:3] == b"BTS" and len(datagram) >= HEADER_SIZE:
                header = datagram[:HEADER_SIZE]
                size = HEADER_SIZE + 5 + header[4] + int.from_bytes(header[6:8], "big")
                out.write(header)
            if header is not None and datagram == header:
                break
            if header is not None and datagram.startswith(header) and len(datagram) == size:
                out.write(datagram[HEADER_SIZE:])
                taken += 1
            else:
                dropped += 1
    out.flush()
    print("receive: datagrams=%d dropped=%d" % (taken, dropped), file=sys.stderr)
    sys.exit(0 if header is not None else 1)


main()
