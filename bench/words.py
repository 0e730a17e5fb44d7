"""The words of the scripts that measure: PROGRAM, and numbers after it."""
import os
import sys
from typing import List, NoReturn, Optional, Tuple


def refuse(why: str) -> NoReturn:
    """Ends a script whose words are wrong."""
    name = os.path.basename(sys.argv[0])
    print(f"{name}: {why}; {name} --help says what it takes", file=sys.stderr)
    sys.exit(2)


def program_and_numbers(usage: Optional[str], *otherwise: int) -> Tuple[str, List[int]]:
    """The path of the program, and a number for each of these, which stand for the numbers that are not given.

    For example `program_and_numbers(__doc__, 3, 5000)` of `measure.py PROGRAM 5` is the program with 5 and 5000. `-h` and `--help` print
    the usage and end the script; other words end it with status 2."""
    words = sys.argv[1:]
    if {"-h", "--help"} & {*words}:
        print((usage or "").strip())
        sys.exit(0)
    if not words or not os.access(words[0], os.X_OK):
        refuse(f"there is no program {words[0]}" if words else "no program is named")
    numbers = words[1:]
    wrong = [it for it in numbers if not it.isdigit()] + numbers[len(otherwise) :]
    if wrong:
        refuse(f"{wrong[0]} is no number that it takes")
    return os.path.abspath(words[0]), [*map(int, numbers), *otherwise[len(numbers) :]]
