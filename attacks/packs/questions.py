"""What is compared of a question: the listing of a Missing, the entries, and a client that takes the pack."""
from __future__ import annotations

import random
from collections import Counter
from typing import Callable, List, Sequence

from gitpool_frames import Answer, Step
from hosts import Differs
from pack_reader import Listed, entry_size, pack_of, pack_of_contents, read_entries, read_listing
from repositories import Bare
from tenants import Question, Tenant, entries_of

UNKNOWN, LIMIT, BAD_NAME = 16, 25, 32
FULL = ("index-pack", "--strict", "--check-self-contained-and-connected", "--stdin")
THIN = (("index-pack", "--strict", "--fix-thin", "--stdin"), ("unpack-objects", "-q", "--strict"))
Take = Callable[[Question, Step], Answer]


def fault(number: int) -> Answer:
    """The answer of a refusal."""
    return Answer(1, number, b"")


def short(names: Sequence[bytes]) -> str:
    """Names for a message."""
    return f"{len(names)}: " + " ".join(it[:12].decode() for it in names[:8])


class Asker:
    """Asks the program, and compares what it answers."""

    def __init__(self, take: Take, draw: random.Random, counts: "Counter[str]"):
        self._take, self._draw, self.counts = take, draw, counts
        self.done: List[str] = []

    def _same(self, what: str, found: object, wanted: object) -> None:
        self.counts["comparisons"] += 1
        if found != wanted:
            raise Differs(f"{what}: found {found!r:.300}, wanted {wanted!r:.300}")

    def ask(self, question: Question, room: str) -> None:
        """A question with all that follows from it: its entries, and a client that has the haves alone."""
        self.done.append(f"{question.tenant.name!r} wants {short(question.wants)}, has {short(question.haves)}")
        answer = self._take(question, question.step)
        if question.is_refused:
            self.counts["refused wants"] += 1
            self._same("a Missing of an unknown want", answer, fault(UNKNOWN))
            return
        self._same("the answer to a Missing", (answer.status, answer.value), (0, 0))
        listing = read_listing(answer.reply)
        self.compare(question, listing)
        entries = self.entries(question, listing)
        self.fetch(question, listing, entries, Bare(room, "client"))
        self.counts["questions"] += 1
        self.counts["objects"] += len(listing)

    def compare(self, question: Question, listing: Sequence[Listed]) -> None:
        """The listing with what git lists, and with the order, kinds and sizes of the pool file."""
        told, exact = [it.name for it in listing], question.exact()
        if set(told) != exact:
            more, less = short(sorted(set(told) - exact)), short(sorted(exact - set(told)))
            raise Differs(f"told and not missing: {more}; missing and not told: {less}")
        places, contents = question.tenant.places, question.tenant.contents
        self._same("the objects of a listing, each once in the order of the repository", told, sorted(exact, key=places.__getitem__))
        for it in listing:
            self._same(f"kind and size of {it.name!r}", (it.kind, it.size), (contents[it.name].kind, len(contents[it.name].data)))

    def entries(self, question: Question, listing: Sequence[Listed]) -> List[bytes]:
        """The entries of a listing, asked for in pieces: some at their limit, some below it, some far below."""
        pieces, at, draw = [], 0, self._draw
        while at < len(listing):
            part = listing[at : at + draw.choice((1, 2, 7, 50, 1_000))]
            at += len(part)
            pieces.append(self._piece(question, part))
        self._other_order(question, listing)
        return pieces

    def _piece(self, question: Question, part: Sequence[Listed]) -> bytes:
        tenant, names = question.tenant, [it.name for it in part]
        size = sum(entry_size(it.size) for it in part)
        if self._draw.random() < 0.2:
            self._same("Entries that are a byte too long", self._take(question, entries_of(tenant.name, names, size - 1)), fault(LIMIT))
        limit = size if self._draw.random() < 0.5 else self._draw.randrange(size, 2**64)
        answer = self._take(question, entries_of(tenant.name, names, limit))
        self._same("the answer to an Entries", (answer.status, answer.value, len(answer.reply)), (0, 0, size))
        contents = list(read_entries(answer.reply))
        self._same("the objects of entries, by SHA-1", [it.name for it in contents], names)
        self._same("the contents of entries", contents, [tenant.contents[it] for it in names])
        return answer.reply

    def _other_order(self, question: Question, listing: Sequence[Listed]) -> None:
        """Entries in another order, with some twice; and with one of an object that the tenant has not."""
        if not listing:
            return
        names = self._draw.choices([it.name for it in listing], k=4)
        answer = self._take(question, entries_of(question.tenant.name, names, 2**63))
        self._same("entries in another order", [it.name for it in read_entries(answer.reply)], names)
        foreign = entries_of(question.tenant.name, [*names, b"%040x" % self._draw.getrandbits(160)], 2**63)
        self._same("Entries with an unknown name", self._take(question, foreign), fault(UNKNOWN))

    def fetch(self, question: Question, listing: Sequence[Listed], entries: Sequence[bytes], client: Bare) -> None:
        """A client that has what the haves reach takes the pack, and has what wants and haves reach then."""
        try:
            tenant, pack = question.tenant, pack_of(entries, len(listing))
            had = tenant.walked(question.known)
            if had:
                client.take(pack_of_contents(tenant.contents[it] for it in had), "index-pack", "--stdin")
            client.take(pack, *(self._draw.choice(THIN) if had else FULL))
            client.point([*question.wants, *question.known])
            client.be_sound()
            self._same("the objects of a client", client.objects(), had | {it.name for it in listing})
            self.counts["fetches" if had else "clones"] += 1
        finally:
            client.remove()


def all_of(tenant: Tenant) -> Question:
    """A clone of a tenant."""
    return Question(tenant, sorted(set(tenant.refs.values())), ())
