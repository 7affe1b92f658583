"""What `make`, `check` and `every_file.py` share: running the program, and the lines of a vector's NAME.expect."""
import os
import subprocess
from pathlib import Path

FOLDER = Path(__file__).parent
PROGRAM = os.environ.get("BATS", str(FOLDER.parent / "crates/bats_tool/out/bats_tool"))
SECONDS = 60


def bats(words, data):
    """Status, notes line and output of a run of the program."""
    if not os.access(PROGRAM, os.X_OK):
        raise SystemExit("vectors: there is no program %s" % PROGRAM)
    ran = subprocess.run([PROGRAM, *words], input=data, capture_output=True, timeout=SECONDS, check=False)
    return ran.returncode, ran.stderr.decode("ascii").rstrip("\n"), ran.stdout


def take(data, places):
    """The header, and of the packet records behind it those at these places, counted from 0; `h` is the header again. All
    packet records have one size, and between them stands nothing else."""
    header, size = data[:32], 5 + data[4] + int.from_bytes(data[6:8], "big")
    return header + b"".join(header if p == "h" else data[32 + int(p) * size:][:size] for p in places)


def made(steps):
    """The packet file that the steps make."""
    data = b""
    for kind, *words in (step.split() for step in steps):
        if kind in ("file", "append"):
            data += bytes.fromhex("".join(words))
        elif kind == "first":
            data = data[:int(words[0])]
        elif kind == "set":
            place, change = int(words[0]), bytes.fromhex(words[1])
            data = data[:place] + change + data[place + len(change):]
        elif kind == "take":
            data = take(data, words)
        else:
            status, notes, data = bats([kind, *words], data)
            if status != 0:
                raise SystemExit("vectors: %s %s ended with %d: %s" % (kind, " ".join(words), status, notes))
    return data


def read_expect(path):
    """The steps of a vector, and of each run its words, status, notes and output."""
    steps, runs = [], []
    for line in path.read_text().splitlines():
        key, _, value = line.partition(" ")
        if key == "made":
            steps.append(value)
        elif key == "run":
            runs.append({key: value})
        elif runs:
            runs[-1][key] = value
    return steps, runs
