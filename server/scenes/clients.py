"""Scenes of clients/scenes, which were written for git-remote-gitpool, played through the server by another URL."""
from __future__ import annotations

import importlib

from served import TOP, ServerRoom, once

for module in ("pushing", "fetching", "refusals", "chance"):
    importlib.import_module("scenes." + module)

from scenes.room import SCENES as THEIRS  # noqa: E402

ELSEWHERE = {
    # The helper's own protocol, the pool file, or folders on this machine:
    "from_odd_places", "relative_pools", "limits_are_told", "wrong_addresses", "two_pushes_at_once", "many_pushes_at_once",
    "a_push_that_is_killed", "an_interrupted_push", "a_pool_that_cannot_be_saved", "a_broken_local_repository",
    "a_push_sends_what_is_missing", "what_was_there_before_is_used_again", "rooms_that_killed_fetches_left_go",
    "a_fetch_asks_for_what_is_missing", "objects_that_no_ref_reaches_are_used", "progress_as_git_shows_it", "two_tenants", "all_or_nothing",
    "many_refs_of_all_kinds", "lists_of_refs",
    "a_ref_that_is_kept_is_no_fast_forward",
    # What the server does and the helper does not:
    "shallow_clones_are_refused", "a_shallow_repository_may_push",
    # git does not tell the server what the local HEAD names:
    "head_names_the_branch_that_is_there", "head_of_a_detached_worktree",
    # receive.fsckObjects of git refuses these, and so does the server:
    "odd_dates_and_people", "odd_messages",
    # The server words these otherwise, for it reads packs and not a repository: refused.py has them.
    "signed_commits_are_refused", "malformed_commits_are_refused", "trees_that_are_not_of_files_are_refused", "tags_that_are_refused",
    "sha256_is_refused",
}

assert TOP


def _through_the_server(name: str) -> None:
    played = dict(THEIRS)[name]

    def through(room: ServerRoom) -> None:
        played(room)

    through.__name__ = f"client_{name}"
    once(through)


for _name, _ in THEIRS:
    if _name not in ELSEWHERE:
        _through_the_server(_name)
