"""Makes the Python package gitpool: the modules of the clients and of the library, for pip, which calls this by pyproject.toml (PEP 517).

It needs no other package and no network. The same tree gives the same bytes. `python3 packaging/python/backend.py FOLDER` makes the wheel too.
"""

from __future__ import annotations

import base64
import glob
import hashlib
import os
import re
import sys
import tarfile
import zipfile
from typing import Any, Dict, List, Optional, Tuple

TOP = os.path.dirname(os.path.dirname(os.path.dirname(os.path.realpath(__file__))))
METADATA = """Metadata-Version: 2.1
Name: gitpool
Version: {version}
Summary: Git repositories of many tenants in one pool: clients of the program gitpool, and its library in this process
License: MIT
Requires-Python: >=3.9
Classifier: Operating System :: POSIX :: Linux
Classifier: Programming Language :: Python :: 3

The module gitpool asks the program gitpool, which it finds by the environment variable GITPOOL or on the PATH. The module gitpool_library has the
same calls, and needs libgitpool.so.0, which it finds by GITPOOL_LIBRARY or where the system has its libraries.
"""
WHEEL = "Wheel-Version: 1.0\nGenerator: gitpool\nRoot-Is-Purelib: true\nTag: py3-none-any\n"


def version() -> str:
    """The version of this tree."""
    with open(os.path.join(TOP, "crates", "command_lines", "src", "version.rt"), encoding="utf-8") as file:
        found = re.search(r'VERSION: &str = "([0-9.]+)"', file.read())
    assert found, "this tree does not say its version"
    return found[1]


def modules() -> List[str]:
    """The paths of all modules in this tree, in the order of their names."""
    return sorted(
        glob.glob(os.path.join(TOP, "clients", "gitpool*.py")) + glob.glob(os.path.join(TOP, "bindings", "python", "gitpool_*.py")),
        key=os.path.basename,
    )


def members() -> List[Tuple[str, bytes]]:
    """The files of the wheel, without its record."""
    found = []
    for path in modules():
        with open(path, "rb") as file:
            found.append((os.path.basename(path), file.read()))
    about = f"gitpool-{version()}.dist-info"
    with open(os.path.join(TOP, "LICENSE"), "rb") as file:
        found.append((f"{about}/LICENSE", file.read()))
    return [*found, (f"{about}/METADATA", METADATA.format(version=version()).encode()), (f"{about}/WHEEL", WHEEL.encode())]


def record_of(listed: List[Tuple[str, bytes]]) -> Tuple[str, bytes]:
    """The record of a wheel: each file with its digest and size."""
    name = f"gitpool-{version()}.dist-info/RECORD"
    lines = [f"{path},sha256={base64.urlsafe_b64encode(hashlib.sha256(data).digest()).rstrip(b'=').decode()},{len(data)}" for path, data in listed]
    return name, "".join(f"{line}\n" for line in [*lines, f"{name},,"]).encode()


def build_wheel(folder: str, config_settings: Optional[Dict[str, Any]] = None, metadata_directory: Optional[str] = None) -> str:
    """Makes the wheel in a folder, and gives its name. (The arguments are those of PEP 517.)"""
    del config_settings, metadata_directory
    name, listed = f"gitpool-{version()}-py3-none-any.whl", members()
    with zipfile.ZipFile(os.path.join(folder, name), "w", zipfile.ZIP_DEFLATED) as wheel:
        for path, data in [*listed, record_of(listed)]:
            entry = zipfile.ZipInfo(path, (1980, 1, 1, 0, 0, 0))
            entry.external_attr, entry.compress_type = 0o644 << 16, zipfile.ZIP_DEFLATED
            wheel.writestr(entry, data)
    return name


def build_sdist(folder: str, config_settings: Optional[Dict[str, Any]] = None) -> str:
    """Makes an archive of what the wheel is made of, and gives its name."""
    del config_settings
    front = f"gitpool-{version()}"
    paths = [
        *modules(),
        *(
            os.path.join(TOP, *it.split("/"))
            for it in ("LICENSE", "pyproject.toml", "packaging/python/backend.py", "crates/command_lines/src/version.rt")
        ),
    ]
    with tarfile.open(os.path.join(folder, front + ".tar.gz"), "w:gz", format=tarfile.PAX_FORMAT) as archive:
        for path in paths:
            archive.add(path, os.path.join(front, os.path.relpath(path, TOP)))
        about = os.path.join(folder, "PKG-INFO")
        with open(about, "w", encoding="utf-8") as file:
            file.write(METADATA.format(version=version()))
        archive.add(about, f"{front}/PKG-INFO")
        os.unlink(about)
    return front + ".tar.gz"


if __name__ == "__main__":
    print(build_wheel(sys.argv[1]))
