"""What the scripts of this folder share: its streams, the programs that they run, and the words that they take."""
import os
import struct
import subprocess
import sys
from typing import Callable, List, NoReturn, Optional, Sequence, Tuple

HERE = os.path.dirname(os.path.abspath(__file__))
TOP = os.path.dirname(HERE)
ANSWER = struct.Struct(">BQQ")


def content(name: str) -> bytes:
    """The bytes of a file of this folder."""
    with open(os.path.join(HERE, name), "rb") as file:
        return file.read()


def stream_names() -> List[str]:
    """The names of the streams, in order."""
    return sorted(it[:-3] for it in os.listdir(HERE) if it.endswith(".fi"))


def frame(kind: int, tenant: bytes, body: bytes = b"") -> bytes:
    """A frame of a step (docs/FORMATS.md)."""
    return struct.pack(">BH", kind, len(tenant)) + tenant + struct.pack(">I", len(body)) + body


def crate_program(crate: str) -> str:
    """The program of a crate, built where a source has changed."""
    if subprocess.run([os.path.join(TOP, "build"), crate], check=False).returncode:
        sys.exit(125)
    return os.path.join(TOP, "crates", crate, "out", crate)


def refuse(why: str) -> NoReturn:
    """Ends a script whose words are wrong."""
    name = os.path.basename(sys.argv[0])
    print(f"{name}: {why}; {name} --help says what it takes", file=sys.stderr)
    sys.exit(2)


def names_of(usage: Optional[str], words: Sequence[str], is_known: Callable[[str], bool]) -> List[str]:
    """The words of a script, each of which has to be known. `-h` and `--help` print its usage, and end it."""
    if {"-h", "--help"} & {*words}:
        print((usage or "").strip())
        sys.exit(0)
    for it in words:
        if not is_known(it):
            refuse(f"nothing here is called {it}")
    return [*words]


def program_and_names(usage: Optional[str], crate: str, is_known: Callable[[str], bool]) -> Tuple[str, List[str]]:
    """The program that the first word of a script names, or else that of a crate; and its other words, each of which has to be known."""
    words = sys.argv[1:]
    names = names_of(usage, words[1:] if words[:1] not in (["-h"], ["--help"]) else words, is_known)
    if not words:
        return crate_program(crate), names
    if not os.path.isfile(words[0]) or not os.access(words[0], os.X_OK):
        refuse(f"there is no program {words[0]}")
    return os.path.abspath(words[0]), names
