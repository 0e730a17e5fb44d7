"""Bugs that are planted: each changes the program's answers on their way, to see that the comparison finds it."""
from __future__ import annotations

import random
import struct
import zlib
from itertools import accumulate
from typing import Callable, Dict, Iterable, List, Optional, Sequence, Set

from gitpool_frames import Answer, Kind, Step
from pack_reader import Listed, entry_size, read_entries, read_head, read_listing, written_head
from pool_files import Content
from tenants import Question, Tenant

Plant = Callable[[random.Random, Sequence[Tenant], Question, Step, Answer], Answer]
Listing = List[Listed]
ListingEdit = Callable[[random.Random, Sequence[Tenant], Question, Listing], Optional[Listing]]
EntryEdit = Callable[[Content, bytes], bytes]


def listed(tenant: Tenant, names: Iterable[bytes]) -> Listing:
    """These objects as a Missing tells them."""
    ordered = sorted(set(names), key=tenant.places.__getitem__)
    return [Listed(it, tenant.contents[it].kind, len(tenant.contents[it].data)) for it in ordered]


def of_listing(edit: ListingEdit) -> Plant:
    """A plant that changes what a Missing lists."""

    def plant(draw: random.Random, tenants: Sequence[Tenant], question: Question, step: Step, answer: Answer) -> Answer:
        if step.kind != Kind.MISSING or answer.status:
            return answer
        changed = edit(draw, tenants, question, read_listing(answer.reply))
        return answer if changed is None else Answer(0, 0, b"".join(it.frame for it in changed))

    return plant


def of_entry(edit: EntryEdit) -> Plant:
    """A plant that changes one entry of an Entries, if there is one that it changes."""

    def plant(draw: random.Random, _tenants: Sequence[Tenant], _question: Question, step: Step, answer: Answer) -> Answer:
        if step.kind != Kind.ENTRIES or answer.status:
            return answer
        contents = list(read_entries(answer.reply))
        ends = list(accumulate(entry_size(len(it.data)) for it in contents))
        for place in draw.sample(range(len(contents)), len(contents)):
            begin, end = ends[place - 1] if place else 0, ends[place]
            changed = edit(contents[place], answer.reply[begin:end])
            if changed != answer.reply[begin:end]:
                return Answer(0, 0, answer.reply[:begin] + changed + answer.reply[end:])
        return answer

    return plant


# Listings


def drop(draw: random.Random, _tenants: Sequence[Tenant], _question: Question, found: Listing) -> Optional[Listing]:
    """An object is left out."""
    gone = draw.randrange(len(found)) if found else -1
    return [it for place, it in enumerate(found) if place != gone]


def add(draw: random.Random, _tenants: Sequence[Tenant], question: Question, found: Listing) -> Optional[Listing]:
    """An object is added that the haves reach, at its place."""
    had = sorted(question.tenant.walked(question.known))
    return listed(question.tenant, [*(it.name for it in found), draw.choice(had)]) if had else None


def swap(draw: random.Random, _tenants: Sequence[Tenant], _question: Question, found: Listing) -> Optional[Listing]:
    """Two neighbours change their places."""
    if len(found) > 1:
        place = draw.randrange(len(found) - 1)
        found[place : place + 2] = reversed(found[place : place + 2])
    return found


def twice(draw: random.Random, _tenants: Sequence[Tenant], _question: Question, found: Listing) -> Optional[Listing]:
    """An object is told twice."""
    return [*found, draw.choice(found)] if found else None


def kind(draw: random.Random, _tenants: Sequence[Tenant], _question: Question, found: Listing) -> Optional[Listing]:
    """An object is told as one of another kind."""
    place = draw.randrange(len(found)) if found else 0
    return [it._replace(kind=it.kind % 4 + 1) if at == place else it for at, it in enumerate(found)]


def size(draw: random.Random, _tenants: Sequence[Tenant], _question: Question, found: Listing) -> Optional[Listing]:
    """An object is told with a byte more."""
    place = draw.randrange(len(found)) if found else 0
    return [it._replace(size=it.size + 1) if at == place else it for at, it in enumerate(found)]


def gitlinks_of(content: Content) -> List[bytes]:
    """What the gitlinks of a tree name."""
    found, at = [], 0
    while content.kind == 2 and at < len(content.data):
        end = content.data.index(b"\0", at) + 21
        if content.data.startswith(b"160000 ", at):
            found.append(content.data[end - 20 : end].hex().encode())
        at = end
    return found


def gitlink(_draw: random.Random, _tenants: Sequence[Tenant], question: Question, found: Listing) -> Optional[Listing]:
    """What gitlinks name is followed, if it is an object of the tenant."""
    tenant = question.tenant
    linked = [name for it in found for name in gitlinks_of(tenant.contents[it.name])]
    more = tenant.walked(linked) - tenant.walked(question.known)
    return listed(tenant, {it.name for it in found} | more)


def edge(_draw: random.Random, _tenants: Sequence[Tenant], question: Question, _found: Listing) -> Optional[Listing]:
    """Of what the haves reach, only commits, tags and what is wanted by its own name count: files that come back are told again."""
    tenant = question.tenant
    had = {it for it in tenant.walked(question.known) if tenant.contents[it].kind in (1, 4)}
    return listed(tenant, tenant.walked(question.wants) - had - set(question.known))


def deaf(_draw: random.Random, _tenants: Sequence[Tenant], question: Question, _found: Listing) -> Optional[Listing]:
    """No have counts."""
    return listed(question.tenant, question.tenant.walked(question.wants))


def shallow_tags(_draw: random.Random, _tenants: Sequence[Tenant], question: Question, _found: Listing) -> Optional[Listing]:
    """A tag that the client has does not say that it has what the tag is of."""
    tenant = question.tenant
    tags = {it for it in question.known if tenant.contents[it].kind == 4}
    had = tenant.walked(it for it in question.known if it not in tags) | tags
    return listed(tenant, tenant.walked(question.wants) - had)


def foreign(_draw: random.Random, tenants: Sequence[Tenant], question: Question, found: Listing) -> Optional[Listing]:
    """A have that only another tenant has counts for what it reaches there."""
    had: Set[bytes] = set()
    for other in tenants:
        had |= other.walked(question.haves)
    return [it for it in found if it.name not in had]


# Refusals


def lenient(_draw: random.Random, _tenants: Sequence[Tenant], question: Question, step: Step, answer: Answer) -> Answer:
    """A want that the tenant has not counts for nothing, instead of being refused."""
    if step.kind == Kind.MISSING and answer.status and question.is_refused:
        reached = listed(question.tenant, question.tenant.walked(question.wants) - question.tenant.walked(question.known))
        return Answer(0, 0, b"".join(it.frame for it in reached))
    return answer


def strict(_draw: random.Random, _tenants: Sequence[Tenant], question: Question, step: Step, answer: Answer) -> Answer:
    """A have that the tenant has not is refused."""
    return Answer(1, 16, b"") if step.kind == Kind.MISSING and len(question.known) < len(question.haves) else answer


def neighbourly(_draw: random.Random, tenants: Sequence[Tenant], question: Question, step: Step, answer: Answer) -> Answer:
    """What another tenant has can be asked for."""
    held = {name: it for other in tenants for name, it in other.contents.items()}
    if step.kind == Kind.MISSING and answer.status and all(it in held for it in question.wants):
        return Answer(0, 0, b"".join(Listed(it, held[it].kind, len(held[it].data)).frame for it in dict.fromkeys(question.wants)))
    return answer


def boundless(_draw: random.Random, _tenants: Sequence[Tenant], _question: Question, step: Step, answer: Answer) -> Answer:
    """Entries that are too long are answered by none."""
    return Answer(0, 0, b"") if step.kind == Kind.ENTRIES and answer.value == 25 else answer


def sorted_entries(_draw: random.Random, _tenants: Sequence[Tenant], question: Question, step: Step, answer: Answer) -> Answer:
    """Entries come in the order of the repository, and not in that of the names."""
    if step.kind != Kind.ENTRIES or answer.status:
        return answer
    contents = sorted(read_entries(answer.reply), key=lambda it: question.tenant.places[it.name])
    return Answer(0, 0, b"".join(stored(it) for it in contents))


# Entries


def stored(content: Content, block: int = 65_535) -> bytes:
    """The entry of an object, in blocks of at most so many bytes."""
    parts = [content.data[at : at + block] for at in range(0, len(content.data), block)] or [b""]
    blocks = [struct.pack("<BHH", place == len(parts) - 1, len(it), len(it) ^ 0xFFFF) + it for place, it in enumerate(parts)]
    head = written_head(content.kind, len(content.data)) + b"\x78\x01"
    return head + b"".join(blocks) + zlib.adler32(content.data).to_bytes(4, "big")


def checksum(_content: Content, entry: bytes) -> bytes:
    """A bit of an Adler-32 is another one."""
    return entry[:-1] + bytes([entry[-1] ^ 1])


def complement(_content: Content, entry: bytes) -> bytes:
    """The complement of a block's length is not one."""
    at = read_head(entry, 0)[2] + 5
    return entry[:at] + bytes([entry[at] ^ 1]) + entry[at + 1 :]


def other_contents(content: Content, entry: bytes) -> bytes:
    """A byte of the contents is another one, under a right checksum."""
    return stored(content._replace(data=content.data[:-1] + bytes([content.data[-1] ^ 1]))) if content.data else entry


def other_kind(content: Content, _entry: bytes) -> bytes:
    """The kind of an entry is that of another one."""
    return stored(content._replace(kind=content.kind % 4 + 1))


def short_blocks(content: Content, entry: bytes) -> bytes:
    """A block of 65,535 bytes is written as two: zlib reads that, but the length is not the one that a client expects."""
    return stored(content, 65_534) if len(content.data) == 65_535 else entry


PLANTS: Dict[str, Plant] = {
    **{it.__name__: of_listing(it) for it in (drop, add, swap, twice, kind, size, gitlink, edge, deaf, shallow_tags, foreign)},
    **{it.__name__: it for it in (lenient, strict, neighbourly, boundless, sorted_entries)},
    **{it.__name__: of_entry(it) for it in (checksum, complement, other_contents, other_kind, short_blocks)},
}
