"""The version of the clients, which is that of the program beside them."""
from __future__ import annotations

import os
import re

_TOP = os.path.dirname(os.path.dirname(os.path.realpath(__file__)))
# The first is there after an install, the second in a checkout.
_PLACES = (os.path.join(_TOP, "version"), os.path.join(_TOP, "crates", "command_lines", "src", "version.rt"))


def version() -> str:
    """The version, as in 0.4.0; "unknown" where the clients stand alone."""
    for place in _PLACES:
        try:
            with open(place, encoding="utf-8") as file:
                found = re.search(r'(?:\A|VERSION: &str = ")(\d+\.\d+\.\d+)', file.read())
        except OSError:
            continue
        if found:
            return found[1]
    return "unknown"
