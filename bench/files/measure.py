"""Puts files into a branch and stores its trees, by the program and by git, in one run: first all files, then one
more edit; then a thousand edits of one directory of 2,000 files, each with its store; then renames of an edited
directory of 10,000 files. Prints the times and the most memory of each, and checks that both name the same trees."""
import os
import subprocess
import sys
import tempfile
import time
from typing import Iterable, Iterator, List, Tuple

program, count, rounds = sys.argv[1], int(sys.argv[2]), int(sys.argv[3])
folder = tempfile.mkdtemp()


def line(number: int, path: int) -> str:
    return "100644 blob %040x\td%02d/s%02d/f%02d\n" % (number, path // 2500, path // 50 % 50, path % 50)


WIDE, EDITS = 2000, 1000


def wide(number: int, file: int) -> str:
    return "100644 blob %040x\twide/f%04d\n" % (number, file)


def wide_edit(number: int) -> str:
    return wide(WIDE + number + 1, number * 7 % WIDE)


def write(name: str, *parts: Iterable[str]) -> None:
    with open(os.path.join(folder, name), "w") as it:
        for part in parts:
            it.writelines(part)


def every() -> Iterator[str]:
    return (line(number + 1, number) for number in range(count))


edit = [line(count + 1, 0)]
write("every", every())
write("edit", edit)
write("both", every(), ["\n"], edit)
wide_files = [wide(number + 1, number) for number in range(WIDE)]
write("wide", wide_files)
write("wide_edits", wide_files, ["\n"], (wide_edit(number) + "\n" for number in range(EDITS)))
for number in range(EDITS):
    write("wide_%d" % number, [wide_edit(number)])


def once(words: List[str], source: str) -> Tuple[float, float, str]:
    start = time.monotonic()
    with open(os.path.join(folder, source)) as it:
        child = subprocess.Popen(words, stdin=it, stdout=subprocess.PIPE, cwd=folder)
    assert child.stdout
    said = child.stdout.read().decode()
    _, status, usage = os.wait4(child.pid, 0)
    assert status == 0, (words, status)
    return time.monotonic() - start, usage.ru_maxrss / 1024, said


def by_program() -> List[str]:
    _, memory, said = once([program], "both")
    print("the program: most memory %.0f MB" % memory)
    names = []
    for stage, text in zip(("all files", "one edit"), said.splitlines()):
        puts, store, name = text.split()
        print("  %s: put %.6f s, store %.6f s" % (stage, int(puts) / 1e6, int(store) / 1e6))
        names.append(name)
    return names


def by_git() -> List[str]:
    subprocess.run(["rm", "-rf", os.path.join(folder, ".git")], check=True)
    subprocess.run(["git", "init", "-q", folder], check=True)
    names = []
    for stage in ("every", "edit"):
        put, memory, _ = once(["git", "update-index", "--index-info"], stage)
        store, more, said = once(["git", "write-tree", "--missing-ok"], stage)
        words = "all files" if stage == "every" else "one edit"
        print("git, %s: update-index %.4f s, write-tree %.4f s, most memory %.0f MB" % (words, put, store, max(memory, more)))
        names.append(said.strip())
    return names


def wide_by_program() -> str:
    _, memory, said = once([program], "wide_edits")
    rows = [row.split() for row in said.splitlines()][1 : EDITS + 1]
    puts, stores = (sum(int(row[at]) for row in rows) / 1e6 for at in (0, 1))
    words = "the program, %d edits of %d files: put %.4f s, store %.4f s, most memory %.0f MB"
    print(words % (len(rows), WIDE, puts, stores, memory))
    return rows[-1][2]


def wide_by_git() -> str:
    subprocess.run(["rm", "-rf", os.path.join(folder, ".git")], check=True)
    subprocess.run(["git", "init", "-q", folder], check=True)
    once(["git", "update-index", "--index-info"], "wide")
    puts = stores = 0.0
    for number in range(EDITS):
        puts += once(["git", "update-index", "--index-info"], "wide_%d" % number)[0]
        took, _, said = once(["git", "write-tree", "--missing-ok"], "wide")
        stores += took
    print("git, the same: update-index %.4f s, write-tree %.4f s" % (puts, stores))
    return said.strip()


MOVED, MOVES = 10000, 1000


def at(folder: str, number: int) -> str:
    return "100644 blob %040x\t%s/f%04d\n" % (number + 1, folder, number)


def moves(one: str, other: str) -> None:
    """A directory is edited, and then renamed to and fro; the trees are stored before and after."""
    files = [at(one, number) for number in range(MOVED)]
    again = at(one, MOVED).replace("f10000", "f0000")
    lines = ["R %s %s\n" % ((one, other) if turn % 2 == 0 else (other, one)) for turn in range(MOVES - 1)]
    write("moves", files, ["\n"], [again], lines, ["\n"])
    write("moved", [it.replace("\t%s/" % one, "\t%s/" % other) for it in [again] + files[1:]])
    write("moved_away", ["0 %040x\t%s/f%04d\n" % (0, one, number) for number in range(MOVED)])


def renames_by_program(one: str, other: str) -> str:
    moves(one, other)
    _, _, said = once([program], "moves")
    took, store, name = said.splitlines()[1].split()
    words = "the program, an edit of %d files and %d renames of %s and %s: %.6f s, %.2f us each; store %.6f s"
    print(words % (MOVED, MOVES - 1, one, other, int(took) / 1e6, int(took) / MOVES, int(store) / 1e6))
    return name


def renames_by_git(one: str, other: str) -> str:
    subprocess.run(["rm", "-rf", os.path.join(folder, ".git")], check=True)
    subprocess.run(["git", "init", "-q", folder], check=True)
    once(["git", "update-index", "--index-info"], "moves_before")
    away = once(["git", "update-index", "--index-info"], "moved_away")[0]
    there = once(["git", "update-index", "--index-info"], "moved")[0]
    store, _, said = once(["git", "write-tree", "--missing-ok"], "moved")
    print("git, one such rename: update-index %.4f s, write-tree %.4f s" % (away + there, store))
    return said.strip()


for _ in range(rounds):
    for pair in (("left", "side"), ("left", "longer/side")):
        name = renames_by_program(*pair)
        write("moves_before", [at(pair[0], number) for number in range(MOVED)])
        assert name == renames_by_git(*pair), "the names differ"
    assert wide_by_program() == wide_by_git(), "the names differ"
    assert by_program() == by_git(), "the names differ"
subprocess.run(["rm", "-rf", folder], check=True)
