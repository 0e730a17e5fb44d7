"""Imports 300 MB of 1 MB random blobs by the program, by git fast-import, and digests the same bytes by
sha1sum and by the kit's sha1 alone, in one run. Prints the best of three and the most memory of each."""
import os
import random
import resource
import subprocess
import sys
import tempfile
import time
from typing import Dict, List, Tuple

program, sha1 = sys.argv[1], sys.argv[2]
folder = tempfile.mkdtemp()
stream, contents = os.path.join(folder, "stream"), os.path.join(folder, "contents")
rng = random.Random(1)
with open(stream, "wb") as s, open(contents, "wb") as c:
    for i in range(300):
        blob = rng.randbytes(1000000)
        s.write(b"blob\nmark :%d\ndata 1000000\n" % (i + 1) + blob + b"\n")
        c.write(blob)


def once(words: List[str], source: str, fresh: bool) -> Tuple[float, float]:
    """The seconds and the most memory in MiB of a run, in a fresh repository of git if it asks for one."""
    repository = tempfile.mkdtemp(dir=folder)
    if fresh:
        subprocess.run(["git", "init", "-q", "--bare", repository], check=True)
    start = time.monotonic()
    child = subprocess.Popen(words, stdin=open(source, "rb"), stdout=subprocess.DEVNULL, cwd=repository)
    _, status, usage = os.wait4(child.pid, 0)
    took = time.monotonic() - start
    assert status == 0, (words, status)
    subprocess.run(["rm", "-rf", repository], check=True)
    return took, usage.ru_maxrss / 1024


runs = {
    "gitpool": ([program], stream, False),
    "git fast-import": (["git", "-c", "core.compression=0", "fast-import", "--quiet"], stream, True),
    "sha1sum": (["sha1sum"], contents, False),
    "the kit's sha1": ([sha1], contents, False),
}
seen: Dict[str, List[Tuple[float, float]]] = {name: [] for name in runs}
for _ in range(3):
    for name, (words, source, fresh) in runs.items():
        seen[name].append(once(words, source, fresh))
for name, found in seen.items():
    took = min(t for t, _ in found)
    print("%-16s %.2f s, %.0f MB/s, at most %.0f MB" % (name, took, 300 / took, max(m for _, m in found) * 1.048576))
subprocess.run(["rm", "-rf", folder], check=True)
