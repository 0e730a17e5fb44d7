"""Frames of tenants that feed the same 10,000 blobs of 300 bytes in turns of 1 KiB, through the program gitpool_frames.

frames.py PROGRAM: three runs with 1 tenant and three with 100. Each prints the time, the most memory, and whether all
answers are 0 with an empty reply.
"""
import os
import struct
import subprocess
import sys
import tempfile
import time

BLOBS = 10_000
PIECE = 1024


def frame(kind: int, tenant: bytes, body: bytes = b"") -> bytes:
    return struct.pack(">BH", kind, len(tenant)) + tenant + struct.pack(">I", len(body)) + body


def blobs() -> bytes:
    """The stream that each tenant feeds."""
    return b"".join(b"blob\ndata 300\n" + struct.pack(">I", number) + b"a" * 296 + b"\n" for number in range(BLOBS))


def write_frames(path: str, count: int) -> None:
    stream = blobs()
    tenants = [b"tenant%d" % number for number in range(count)]
    with open(path, "wb") as out:
        for tenant in tenants:
            out.write(frame(1, tenant))
        for place in range(0, len(stream), PIECE):
            for tenant in tenants:
                out.write(frame(2, tenant, stream[place : place + PIECE]))
        for tenant in tenants:
            out.write(frame(3, tenant))


def measure(program: str, path: str, count: int) -> None:
    start = time.time()
    with open(path, "rb") as frames, open(path + ".out", "wb") as answers:
        run = subprocess.Popen(["nice", "-n", "-10", program, "sha1"], stdin=frames, stdout=answers)
        _, status, used = os.wait4(run.pid, 0)
    took = time.time() - start
    with open(path + ".out", "rb") as answers:
        told = answers.read()
    print(
        f"{count} tenants: status {status}, {took:.2f} s, {used.ru_utime:.2f} s of them in the program, "
        f"most memory {used.ru_maxrss} KiB, {len(told) // 17} answers, all 0: {not told.strip(bytes(1))}, "
        f"load {os.getloadavg()[0]:.1f}",
        flush=True,
    )


def main() -> None:
    with tempfile.TemporaryDirectory() as folder:
        for count in (1, 100):
            path = os.path.join(folder, "frames")
            write_frames(path, count)
            for _ in range(3):
                measure(os.path.abspath(sys.argv[1]), path, count)


if __name__ == "__main__":
    main()
