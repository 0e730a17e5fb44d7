#!/usr/bin/env python3
# turns.py PROGRAM [TENANTS]: the same frames as frames.py, each sent once the one before is answered; how long each tenant waited in all.
# The time of a frame has the pipes' in it, so what counts is how the tenants compare.
import struct
import subprocess
import sys
import time
from typing import Tuple

sys.dont_write_bytecode = True
from frames import PIECE, blobs, frame


def asked(process: "subprocess.Popen[bytes]", text: bytes) -> Tuple[int, int, bytes]:
    """The status, the value and the reply of the answer to a frame."""
    assert process.stdin and process.stdout
    process.stdin.write(text)
    process.stdin.flush()
    status, value, size = struct.unpack(">BQQ", process.stdout.read(17))
    reply = process.stdout.read(size)
    return status, value, reply


def main() -> None:
    count = int(sys.argv[2]) if len(sys.argv) > 2 else 100
    stream = blobs()
    tenants = [b"tenant%d" % n for n in range(count)]
    process = subprocess.Popen([sys.argv[1], "sha1"], stdin=subprocess.PIPE, stdout=subprocess.PIPE)
    waited = [0.0] * count
    wrong = 0
    turns = [(1, b"")] + [(2, stream[at : at + PIECE]) for at in range(0, len(stream), PIECE)] + [(3, b"")]
    for kind, body in turns:
        for number, tenant in enumerate(tenants):
            text = frame(kind, tenant, body)
            start = time.perf_counter()
            status, _, _ = asked(process, text)
            waited[number] += time.perf_counter() - start
            wrong += status != 0
    with open(f"/proc/{process.pid}/status") as lines:
        peak = next(line.split()[1] for line in lines if line.startswith("VmHWM"))
    process.communicate()
    rest = sorted(waited[1:])
    print(
        f"{count} tenants: the first {waited[0]:.3f} s, the last {waited[-1]:.3f} s; the others {rest[0]:.3f} to {rest[-1]:.3f} s, "
        f"median {rest[len(rest) // 2]:.3f} s; {wrong} steps refused; {peak} KiB at most"
        if rest
        else f"one tenant: {waited[0]:.3f} s; {wrong} steps refused; {peak} KiB at most"
    )


main()
