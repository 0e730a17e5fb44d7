"""What the numbers of gitpool's refusals mean, their usual cause, and the next step, in the words of docs/FAULTS.md."""
from __future__ import annotations

import re
from typing import Dict, NamedTuple


class Explanation(NamedTuple):
    """One number in words: what it means, its usual cause, and what to do next."""

    meaning: str
    cause: str
    next_step: str


# The table of docs/FAULTS.md, written by packaging/faults.
EXPLANATIONS: Dict[int, Explanation] = {
    1: Explanation(
        "a line is longer than 1,048,575 bytes",
        "another exporter wrote the stream, or it was edited by hand",
        "send long contents by `data`, not on a line",
    ),
    2: Explanation(
        "unknown command",
        "notes (`N`), a `property` or another extension; or a wrong count of the `data` before it",
        "import it with `gitpool-import --filter notes,properties`; check the `data` before it",
    ),
    3: Explanation(
        "a line is malformed, or a commit-ish is no expression",
        "another exporter wrote the stream, or it was edited by hand",
        "compare it with git-fast-import(1) or gitrevisions(7)",
    ),
    4: Explanation(
        "bad count or delimiter of a `data`",
        "another exporter wrote the stream",
        "write `data` with a decimal count below 2^64",
    ),
    5: Explanation(
        "a part of a command is missing or misplaced",
        "the exporter died between two lines, or writes another order or signatures of commits (`gpgsig`)",
        "export again with `--use-done-feature`; import signed commits with `gitpool-import --filter signatures`; compare the order with git-fast-import(1)",
    ),
    6: Explanation(
        "the stream is cut off in a line or a `data`",
        "the program that wrote the stream died, or the transfer broke off",
        "look for its own message, and export again",
    ),
    7: Explanation(
        "the stream asked for `done` and ended without it",
        "the program that wrote the stream died, or the transfer broke off",
        "look for its own message, and export again",
    ),
    8: Explanation(
        "a feature or option that is not supported",
        "the stream was written for another importer",
        "import it with `gitpool-import --filter dates,features,properties`; else leave the line out, if the rest does not need it",
    ),
    9: Explanation(
        "a feature or option that comes too late",
        "it stands after a command",
        "move the line to the top of the stream",
    ),
    10: Explanation(
        "bad path",
        "a path has an empty component, `.` or `..`, or is quoted wrongly",
        "quote the path as git-fast-import(1) says",
    ),
    11: Explanation(
        "bad ref name",
        "the name does not begin with `refs/`, or git-check-ref-format(1) refuses it",
        "rename the ref before the export",
    ),
    12: Explanation(
        "bad mark",
        "a mark is not a number from 1 to 2^64 - 1",
        "write marks as a colon and a decimal number",
    ),
    13: Explanation(
        "no object has this mark",
        "the mark was set in an earlier stream, or is set later",
        "export the whole history, not only what is new since a marks file",
    ),
    14: Explanation(
        "the repository has no object of this name",
        "the stream builds on objects that were never imported",
        "first import what it builds on",
    ),
    15: Explanation(
        "the object is of another kind",
        "a tag of a tree, or a mode that does not fit the object",
        "leave the tag out, or name an object of the right kind",
    ),
    16: Explanation(
        "a name or expression names nothing in the repository, or an unborn branch",
        "a misspelt ref or tenant, another's object, or HEAD, which is `refs/heads/main` until a stream sets it",
        "ask `refs` and `head`; USE.md, \"Set HEAD\"",
    ),
    17: Explanation(
        "several object names begin with these digits",
        "the abbreviation is too short",
        "give more digits",
    ),
    18: Explanation(
        "the source of a copy or rename has no file",
        "another exporter wrote the stream",
        "export without `-M` and `-C`",
    ),
    19: Explanation(
        "a branch is to start from itself",
        "`from` names the branch of its own commit",
        "leave `from` out, or write `<branch>^0`",
    ),
    20: Explanation(
        "a file would be at the root",
        "the path of a file is empty",
        "give the file a path",
    ),
    21: Explanation(
        "bad identity",
        "an author, committer or tagger is not `name <email>`",
        "correct the commit, or filter the export",
    ),
    22: Explanation(
        "bad date",
        "a date is not seconds, a space, a sign and four digits",
        "correct the commit, or filter the export",
    ),
    23: Explanation(
        "bad mode",
        "a file has another mode than 100644, 100755, 120000, 160000 and 040000",
        "write one of these",
    ),
    24: Explanation(
        "another content of this repository has the object name",
        "a collision of SHA-1, so an attack",
        "keep both contents, and find out where the second comes from",
    ),
    25: Explanation(
        "a limit is passed",
        "contents, paths, refs or counts above docs/FORMATS.md, \"Limits\"",
        "split what is too large, or leave it out",
    ),
    30: Explanation(
        "the tenant has no stream",
        "a Feed or an End without an Open, or after a restart of `serve`",
        "send an Open, and the stream from its beginning",
    ),
    31: Explanation(
        "the tenant has a stream, even if it is dead",
        "a second Open; no End was sent after a fault",
        "send an End first",
    ),
    32: Explanation(
        "bad tenant name",
        "the name is not 1 to 64 bytes, in parts of letters, digits, `-` and `_` between slashes, none of which begins with `-`",
        "choose a name of this form",
    ),
    33: Explanation(
        "the target of a copy, or a tenant that a merge brings, has an object, a ref, or another HEAD than `refs/heads/main`",
        "something was imported into it before",
        "copy to a new name",
    ),
    40: Explanation(
        "unknown query",
        "the first word is misspelt",
        "see the queries in the man page",
    ),
    41: Explanation(
        "malformed query: above 8,192 bytes, or what follows its word is not what the word asks for",
        "an expression is missing, or a word too many",
        "see the queries in the man page",
    ),
    50: Explanation(
        "an unknown frame kind, or a length that does not go with its kind",
        "the caller does not write frames as docs/FORMATS.md says",
        "correct the caller, and start `serve` again",
    ),
    51: Explanation(
        "the input ends inside a frame",
        "the caller died, or the connection broke off",
        "start `serve` again",
    ),
    60: Explanation(
        "no pool file",
        "`--pool` names another file, whose first eight bytes differ",
        "check the path",
    ),
    61: Explanation(
        "a pool file of a version other than 1 and 2",
        "a newer program saved it",
        "use that program",
    ),
    62: Explanation(
        "a pool file is cut off",
        "it was copied in part, or the disk failed",
        "take the last backup",
    ),
    63: Explanation(
        "the digest of the pool file is wrong",
        "the file was damaged or edited after it was saved",
        "take the last backup",
    ),
    64: Explanation(
        "a pool file is not written as a save would write it",
        "another program wrote it, with a good digest",
        "take the last backup, and find out who may write the file",
    ),
    65: Explanation(
        "an object of a pool file is invalid: its kind, its contents, a limit, an empty directory in a tree",
        "another program wrote it, with a good digest",
        "take the last backup, and find out who may write the file",
    ),
    66: Explanation(
        "an object of a pool file refers to none before it, or to one of another kind; or a ref has no object",
        "another program wrote it, with a good digest",
        "take the last backup, and find out who may write the file",
    ),
    67: Explanation(
        "a ref or HEAD of a pool file has a bad name, or the ref holds an object that it may not",
        "another program wrote it, with a good digest",
        "take the last backup, and find out who may write the file",
    ),
    68: Explanation(
        "a device failed or never ends, or another run has the pool file",
        "another run; FILE does not exist or is a folder; missing permissions; a full disk; a closed output",
        "wait for the other run; check path, permissions and space",
    ),
    69: Explanation(
        "bytes follow the digest of a pool file",
        "something was appended to it",
        "take the last backup",
    ),
    90: Explanation(
        "an allocation failed: memory ran out",
        "the pool is larger than the memory that the process may use",
        "give it more memory, or move tenants to a pool of their own",
    ),
}
# The end of the table.

_UNKNOWN = Explanation("unknown fault", "the program is newer than this client", "see docs/FAULTS.md")


def explain(number: int) -> Explanation:
    """The number of a refusal in words. An unknown number is said to be one."""
    return EXPLANATIONS.get(number, _UNKNOWN)


# The filter of gitpool-import that takes such a line away or changes it, by the number of the fault and the line that is refused.
_FILTERS = (
    (2, re.compile(rb"property "), "properties", "a property of a commit"),
    (2, re.compile(rb"N "), "notes", "a note"),
    (5, re.compile(rb"gpgsig "), "signatures", "the signature of a commit"),
    (8, re.compile(rb"feature date-format="), "dates", "dates of another format"),
    (8, re.compile(rb"feature (commit-properties|empty-directories|multiple-authors)\b"), "properties", "properties of commits"),
    (8, re.compile(rb"feature (import-marks|import-marks-if-exists|export-marks|relative-marks|no-relative-marks)\b"), "features", "marks files"),
    (8, re.compile(rb"option git "), "features", "an option that tunes git"),
)


def sentences(number: int, line: bytes = b"") -> str:
    """The number of a refusal as three short lines: its meaning, the usual cause, the next step. Where the line that is refused is known, a
    filter of gitpool-import may be the next step."""
    told = explain(number)
    for fault, pattern, name, what in _FILTERS:
        if fault == number and pattern.match(line):
            told = told._replace(cause=f"the stream has {what}", next_step=f"give --filter {name}, or export without it")
    return f"fault {number}: {told.meaning}\n  usual cause: {told.cause}\n  next step: {told.next_step}"
