#!/usr/bin/env python3
"""Imports a stream of git-fast-import(1) from standard input, and prints the refs and the log of HEAD: history.py [TENANT]."""
import sys

from gitpool_library import Fault, Service


def print_history(tenant: str) -> None:
    out = sys.stdout.buffer
    with Service() as service:
        out.write(service.import_stream(tenant, sys.stdin.buffer))
        for ref in service.refs(tenant):
            out.write(b"%b %b\n" % (ref.target.encode(), ref.name))
        for entry in service.log(tenant, "HEAD"):
            out.write(b"%b %b\n" % (entry.commit.encode(), entry.subject))


def main() -> int:
    try:
        print_history(sys.argv[1] if len(sys.argv) > 1 else "site")
    except Fault as fault:
        print(f"history: {fault}", file=sys.stderr)
        return 1
    return 0


if __name__ == "__main__":
    sys.exit(main())
