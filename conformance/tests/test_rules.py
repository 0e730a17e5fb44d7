"""What docs/rules finds in rules that are wrong."""
import unittest
from typing import Any, List

from rules import Told, all_rules

from tests.adapters import load_script


SCRIPT = load_script("docs/rules")


class WrongRules(unittest.TestCase):
    def setUp(self) -> None:
        self.rules: List[Told] = all_rules()

    def change(self, case: str, **parts: Any) -> None:
        """Changes parts of the first rule that has a case."""
        at = next(at for at, it in enumerate(self.rules) if case in it.cases)
        own = {name: parts.pop(name) for name in ("title", "git") if name in parts}
        self.rules[at] = self.rules[at]._replace(rule=self.rules[at].rule._replace(**own), **parts)

    def assert_found(self, look: str, words: str) -> None:
        found = [*getattr(SCRIPT, look)(self.rules)]
        self.assertTrue(any(words in it for it in found), found)

    def test_none_is_wrong(self) -> None:
        self.assertEqual(SCRIPT.found_in(self.rules, []), [])

    def test_numbers(self) -> None:
        self.rules = [it for it in self.rules if "mark_zero" not in it.cases]
        self.assert_found("look_at_numbers", "not numbered")
        self.assert_found("look_at_numbers", "the fault 12")
        self.rules = self.rules[:-5]
        self.assert_found("look_at_numbers", "there is no rule 91")

    def test_cases(self) -> None:
        self.change("blank_line_in_blob", cases=["no_such_case"])
        self.assert_found("look_at_cases", "no case no_such_case")
        self.assert_found("look_at_cases", "blank_line_in_blob has no rule")
        self.change("copy_missing", title="", text="")
        self.assert_found("look_at_cases", "copy_missing has its fault, 18")

    def test_definitions(self) -> None:
        self.change("alias", definitions=[("stream_commands", "Refs", "no_such_name"), ("stream_commands", "NoSuchModule", "")])
        for words in ("stream_commands Refs no_such_name", "NoSuchModule", "no rule names stream_grammar Acts Alias"):
            self.assert_found("look_at_definitions", words)
        self.rules = [it._replace(definitions=[at for at in it.definitions if at[2] != "start_in" and at[0] != "tenant_tables"]) for it in self.rules]
        self.assert_found("look_at_definitions", "no rule names stream_commands CommitIshes start_in")
        self.assert_found("look_at_definitions", "no rule names tenant_tables Abbreviation")

    def test_git(self) -> None:
        self.change("ref_below_a_ref", git="The same.")
        self.assert_found("look_at_git", "ref_below_a_ref in another way")
        self.change("alias", git="Refuses it.", cases=["alias"])
        self.assert_found("look_at_git", "git does all its cases as expected")

    def test_exporters(self) -> None:
        self.change("merge", git="Refuses it.")
        self.assert_found("look_at_exporters", "not told to exporters")
