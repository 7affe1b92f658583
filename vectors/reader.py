#!/usr/bin/env python3
"""A second implementation, made from docs/FORMATS.md and standing alone: it makes the packet file of each vector from its
recipe, computes what `sink`, `check` and `show` say of it, and compares both with what is stored. Slow and plain.

usage: vectors/reader.py [NAME ...]      (all vectors where none is named)
"""
import re
import struct
import sys
from pathlib import Path

sys.dont_write_bytecode = True
from batches import (Packet, batch_of, combined, dot, equation, kept_packets, packet_record, reduce, relay, session_of,
                     source, symbols_of)

MOST_RECORDS = 1 << 20
MOST_SYMBOLS = 4096
MOST_KEPT = 8192


# ---- reading a packet file

def first_refusal(data):
    """Why the first record is refused, if it is."""
    if data[:1] != b"B":
        return "no-header"
    if len(data) < 32:
        return "truncated"
    m, mode, t, length = struct.unpack(">BBHQ", data[4:16])
    rules = [("magic", data[:3] == b"BTS"), ("version", data[3] == 1), ("m", 1 <= m <= 32), ("mode", mode & 127 <= 1),
             ("t", 1 <= t <= 2048), ("length", length <= MOST_SYMBOLS * t)]
    return next(("bad-header field=" + field for field, holds in rules if not holds), None)


def record_at(session, data, at):
    """The record at a place: the header or a packet; or why it is refused."""
    size = {b"B": 32, b"P": 5 + session.m + session.t}.get(data[at:at + 1])
    if size is None:
        return "bad-tag byte=%02x" % data[at]
    record = data[at:at + size]
    if len(record) < size:
        return "truncated"
    if record[:1] == b"B":
        return session if record == session.header else "other-session"
    return Packet(int.from_bytes(record[1:5], "big"), record[5:5 + session.m], record[5 + session.m:])


def read(data):
    """The session, the records with their places, and how the reading ends early, if it does: status and notes line."""
    reason = first_refusal(data)
    if reason is not None:
        return None, [], (4, "bats: input at=0 " + reason)
    session = session_of(data[:32])
    records, at = [(0, session)], 32
    while at < len(data):
        if len(records) == MOST_RECORDS:
            return session, records, (5, "bats: limit records")
        record = record_at(session, data, at)
        if isinstance(record, str):
            return session, records, (4, "bats: input at=%d %s" % (at, record))
        records.append((at, record))
        at += 32 if record is session else 5 + session.m + session.t
    return session, records, None


def packets_in(records):
    return [record for _, record in records if isinstance(record, Packet)]


# ---- the answer to packets

def solve(session, packets, columns, zeros):
    """In some columns: whether any values solve, the first open symbol or None, and the values of the symbols before it. The
    last symbol is zero there where `zeros` says so."""
    rows = [equation(session, p) + p.payload[columns] for p in packets]
    if zeros and session.symbols:
        rows.append(bytes(session.symbols - 1) + b"\1" + bytes(len(range(session.t)[columns])))
    rows, pivots = reduce(rows, session.symbols)
    if any(any(row) for row in rows[len(pivots):]):
        return False, None, []
    values = {place: row for place, row in zip(pivots, rows) if row[:session.symbols].count(0) == session.symbols - 1}
    opened = next((s for s in range(session.symbols) if s not in values), None)
    return True, opened, [values[s][session.symbols:] for s in range(session.symbols)] if opened is None else []


def answer(session, packets):
    """`file` with the file, `inconsistent`, or `need-more` with the first open symbol."""
    used = session.length - (session.symbols - 1) * session.t if session.symbols else session.t
    solved, opened, front = solve(session, packets, slice(0, used), False)
    also_solved, _, back = solve(session, packets, slice(used, session.t), True)
    if not (solved and also_solved):
        return "inconsistent", None
    if opened is not None:
        return "need-more", opened
    return "file", b"".join(a + b for a, b in zip(front, back))[:session.length]


# ---- which symbols are inactive

def fixes(session, number, kept, known):
    """Whether the kept packets of a batch leave nothing open of its contributors that aren't known, of which there are some."""
    contributors, generator = batch_of(session, number)
    open_places = [k for k, s in enumerate(contributors) if s not in known]
    if len(open_places) > len(kept):
        return False
    rows = [bytes(dot(packet.coefs, generator[k]) for k in open_places) for packet in kept]
    return bool(open_places) and len(reduce(rows, len(open_places))[1]) == len(open_places)


def spread(session, kept, known):
    """Adds the contributors of each batch that fixes them, as long as there is one."""
    while True:
        found = next((number for number in kept if fixes(session, number, kept[number], known)), None)
        if found is None:
            return
        known.update(batch_of(session, found)[0])


def inactive_count(session, kept):
    """How many symbols are taken as known: the last one, where it is padded, and then, as long as a symbol isn't known by these, the
    one among them that is in most of the held batches, of equals the lowest."""
    held = [s for number in kept for s in batch_of(session, number)[0]]
    chosen = [session.symbols - 1] if session.length % session.t else []
    count, known = len(chosen), set(chosen)
    spread(session, kept, known)
    for s in sorted(range(session.symbols), key=lambda s: (-held.count(s), s)):
        if s not in known:
            count += 1
            known.add(s)
            spread(session, kept, known)
    return count


# ---- what the commands say

def agrees(session, packets, file):
    symbols = symbols_of(session, file)
    return all(combined(session.t, equation(session, p), symbols) == p.payload for p in packets)


def batch_lines(session, kept):
    return "".join("batch %d degree %d kept %d\n" % (number, len(batch_of(session, number)[0]), len(list_of_batch))
                   for number, list_of_batch in kept.items())


def telling(command, session, packets, kept, kind, value):
    """Status, notes line and output of `sink` or `check` for an answer."""
    said = {"file": " length=%d" % session.length, "inconsistent": "", "need-more": " open=%s" % value}[kind]
    notes = "%s: %s%s packets=%d kept=%d" % (command, kind, said, len(packets), sum(map(len, kept.values())))
    notes += " inactive=%d" % inactive_count(session, kept)
    output = value if kind == "file" else b""
    if command == "check":
        opened = " open %d" % value if kind == "need-more" else ""
        output = (batch_lines(session, kept) + "answer " + kind + opened + "\n").encode()
    return ["file", "need-more", "inconsistent"].index(kind), notes, output


def solving(command, data):
    """Status, notes line and output of `sink` or `check`."""
    session, records, refusal = read(data)
    packets = packets_in(records)
    kept = kept_packets(session, packets) if session else {}
    if sum(map(len, kept.values())) > MOST_KEPT:
        return 5, "bats: limit kept", b""
    if refusal:
        return (*refusal, b"")
    return telling(command, session, packets, kept, *answer(session, packets))


def show_line(at, record):
    if isinstance(record, Packet):
        return "packet at=%d batch=%d coefs=%s payload=%s\n" % (at, record.batch, record.coefs.hex(), record.payload.hex())
    return "header at=%d m=%d t=%d length=%d symbols=%d systematic=%d table=%d seed=%s\n" % (
        at, record.m, record.t, record.length, record.symbols, record.systematic, record.table, record.seed.hex())


def show(data):
    _, records, refusal = read(data)
    output = "".join(show_line(at, record) for at, record in records).encode()
    packets = len(packets_in(records))
    return (*(refusal or (0, "show: headers=%d packets=%d" % (len(records) - packets, packets))), output)


# ---- the recipe of a vector

def relayed(data, words):
    session, records, _ = read(data)
    return relay(session, packets_in(records), words)


def take(data, places):
    """The header, and of the packet records those at these places, counted from 0; `h` is the header again."""
    session, records, _ = read(data)
    packets = packets_in(records)
    return session.header + b"".join(session.header if p == "h" else packet_record(packets[int(p)]) for p in places)


def make(steps):
    data = b""
    for kind, *words in steps:
        if kind in ("file", "append"):
            data += bytes.fromhex("".join(words))
        elif kind == "first":
            data = data[:int(words[0])]
        elif kind == "set":
            place, change = int(words[0]), bytes.fromhex(words[1])
            data = data[:place] + change + data[place + len(change):]
        else:
            data = {"source": source, "relay": relayed, "take": take}[kind](data, words)
    return data


# ---- comparing

def read_expect(path):
    """The steps that make the packet file, and of each run its words, status, notes and output."""
    steps, runs = [], []
    for line in path.read_text().splitlines():
        key, _, value = line.partition(" ")
        if key == "made":
            steps.append(value.split())
        elif key == "run":
            runs.append({key: value})
        elif runs:
            runs[-1][key] = value
    return steps, runs


def both_fault(data, run):
    """What is wrong with two files of `sink --both`. Which two they are is free."""
    session, records, _ = read(data)
    output, opened = bytes.fromhex(run["output"]), solving("sink", data)[1].split()[2]
    first, second = output[:session.length], output[session.length:]
    pairs = enumerate(zip(symbols_of(session, first), symbols_of(session, second)))
    if not all(agrees(session, packets_in(records), file) for file in (first, second)):
        return "a file doesn't agree with the packets"
    return None if "open=%d" % next(s for s, (a, b) in pairs if a != b) == opened else "the files differ elsewhere"


def run_fault(data, run):
    """What is wrong with a stored run. A notes line may lack the last field, as it did once."""
    command, *rest = run["run"].split()
    status, notes, output = show(data) if command == "show" else solving(command, data)
    if int(run["status"]) != status:
        return "the status is %d" % status
    if run["notes"] not in (notes, re.sub(" inactive=[0-9]+$", "", notes)):
        return "the notes line is " + notes
    if rest == ["--both"] and status == 1:
        return both_fault(data, run)
    return None if bytes.fromhex(run["output"]) == output else "the output is " + output.hex()


def main():
    folder = Path(__file__).parent
    names = sys.argv[1:] or sorted(path.stem for path in folder.glob("*.expect"))
    faults = []
    for name in names:
        data = (folder / (name + ".packets")).read_bytes()
        steps, runs = read_expect(folder / (name + ".expect"))
        if make(steps) != data:
            faults.append(name + ": the recipe gives another packet file")
        for run in runs:
            fault = run_fault(data, run)
            if fault:
                faults.append("%s: %s: %s" % (name, run["run"], fault))
    print("\n".join(faults + ["reader: %d vectors, %d faults" % (len(names), len(faults))]))
    sys.exit(1 if faults or not names else 0)


if __name__ == "__main__":
    main()
