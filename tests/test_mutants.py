"""Finds the function of a source file that a mutant changes; and how the environment chooses one of many mutants."""

import glob
import importlib.machinery
import importlib.util
import os
import sys

from support.case import Case
from support.program import ROOT

sys.path.insert(0, f"{ROOT}/refusals")
import schemata  # noqa: E402
from catalogue import Mutant, Exchange  # noqa: E402
from places import function_at, is_of_trait  # noqa: E402

loader = importlib.machinery.SourceFileLoader("plants", f"{ROOT}/refusals/plant")
spec = importlib.util.spec_from_loader("plants", loader)
assert spec
plants = importlib.util.module_from_spec(spec)
loader.exec_module(plants)


class Heads(Case):
    """The block of methods that contains a position of a source file."""

    TEXT = """impl Kept {
    fn end(&self) {}
}

impl<'a, S: Read + Write, L: OpenListener<Stream = S>, T: Clock> Callers
    for Accepted<'a, L, T> {
    fn end(&mut self) {
        self.discard();
    }
}
"""

    def test_a_head_on_two_lines(self) -> None:
        place, mutant = function_at("src/callers.rt", self.TEXT, self.TEXT.index("self.discard"))
        self.assertEqual(place, ("callers", "AcceptedCallers", "end"))
        self.assertTrue(is_of_trait(self.TEXT, mutant))

    def test_a_head_on_one_line(self) -> None:
        place, mutant = function_at("src/callers.rt", self.TEXT, self.TEXT.index("&self"))
        self.assertEqual(place, ("callers", "Kept", "end"))
        self.assertFalse(is_of_trait(self.TEXT, mutant))


class Choice(Case):
    """A build with many mutants."""

    SOURCE = """//! Counts.

const MOST: u64 = 64;

pub fn next(count: u64, of: &[(u64, u64)]) -> Option<u64>
    ensures { IsNext count of.now result }
{
    count.checked_add(1)
}

impl<'a, S: Read> Source for Counted<'a, S> {
    fn read(&mut self, buffer: &mut [u8]) -> Result<usize, Fault> {
        self.count += 1;
        self.inner.read(buffer)
    }
}
"""

    def plant(self, *exchanges: tuple[str, str]) -> str:
        """Returns the source file with a mutant for each of these exchanges."""
        os.makedirs(f"{self.folder}/crates/low/src")
        for name, text in (("lib.rt", "pub mod counts;\n"), ("counts.rt", self.SOURCE)):
            with open(f"{self.folder}/crates/low/src/{name}", "w", encoding="utf-8") as file:
                file.write(text)
        mutants = [Mutant("low", f"mutant_{old}", [Exchange("src/counts.rt", old, new)]) for old, new in exchanges]
        schemata.plant(self.folder, mutants)
        with open(f"{self.folder}/crates/low/src/counts.rt", encoding="utf-8") as file:
            return file.read()

    def test_two_bodies_of_one_function(self) -> None:
        planted = self.plant(("checked_add(1)", "checked_add(2)"), ("count.checked_add(1)", "None"))
        self.assertIn("""pub fn next(count: u64, of: &[(u64, u64)]) -> Option<u64>
    ensures { IsNext count of.now result }
{
    if crate::mutant::mutant_of_low() == 1 {
        return next_1(count, of);
    }
    if crate::mutant::mutant_of_low() == 2 {
        return next_2(count, of);
    }
    next_right(count, of)
}

fn next_1(count: u64, of: &[(u64, u64)]) -> Option<u64>
{
    count.checked_add(2)
}

fn next_2(count: u64, of: &[(u64, u64)]) -> Option<u64>
{
    None
}

fn next_right(count: u64, of: &[(u64, u64)]) -> Option<u64>
{
    count.checked_add(1)
}
""", planted)
        with open(f"{self.folder}/crates/low/src/lib.rt", encoding="utf-8") as file:
            self.assertEqual(file.read(), "mod mutant;\npub mod counts;\n")

    def test_a_method_of_a_trait(self) -> None:
        """Its copies are methods of the type."""
        planted = self.plant(("self.count += 1;", ""))
        self.assertIn("        self.read_right(buffer)\n    }\n}\n\nimpl<'a, S: Read> Counted<'a, S> {\n    fn read_1(&mut self, ", planted)

    def test_a_mutant_that_can_not_be_chosen(self) -> None:
        for number, (old, new) in enumerate((("= 64", "= 63"), ("-> Option<u64>", "-> Option<u32>"), ("count.now", "count.old"))):
            self.folder = f"{self.folder}/{number}"
            with self.subTest(old), self.assertRaisesRegex(schemata.Unfit, "low/mutant_"):
                self.plant((old, new))


class Planted(Case):
    """The mutants that `rt plant` lets through, compared with the reviewed list."""

    TEXT = """proves      src/book.rt:41 OrderBook::hear: { None }
proves      src/book.rt:60 OrderBook::line: { first(book, 0) }  (and in 2 more impls)
no-ensures  src/meaning.rt:8 name
note: some plants may not have been tried: raise --max or --minutes, or give --only
plants crate=low planted-in=3 untested=0 no-ensures=1 proves=2 same=0 refused=7 elsewhere=0 not-judged=0 not-source=1 not-run=0
"""

    def test_what_is_let_through(self) -> None:
        found = plants.let_through("low", self.TEXT)
        self.assertEqual(found, [("low", "src/book.rt OrderBook::hear", "{ None }"),
                                 ("low", "src/book.rt OrderBook::line", "{ first(book, 0) }"),
                                 ("low", "src/meaning.rt name", "any")])

    def test_what_the_list_does_not_have_is_new(self) -> None:
        found = plants.let_through("low", self.TEXT)
        known = {found[0]: "it means the same", plants.Mutant("low", "src/meaning.rt name", "*"): "no promise",
                 plants.Mutant("low", "src/old.rt gone", "{ 0 }"): "none"}
        self.assertEqual(plants.compare(found, known, "low", True), ([found[1]], [plants.Mutant("low", "src/old.rt gone", "{ 0 }")]))
        self.assertEqual(plants.compare(found, known, "low", False), ([found[1]], []))

    def test_each_mutant_of_the_list_has_a_reason(self) -> None:
        self.assertTrue(all(plants.reviewed(plants.LIST).values()))

    def test_each_crate_has_a_night(self) -> None:
        sizes = {"one": 9, "two": 4, "three": 4, "four": 1}
        shares = [plants.share_of(sizes, 2, night) for night in (10, 11)]
        self.assertEqual(shares, [["one"], ["two", "three", "four"]])
        self.assertEqual(plants.share_of(sizes, 1, 10), ["one", "two", "three", "four"])


class OfCi(Case):
    """The edits that CI tries."""

    def test_a_crate_has_at_most_two_each_of_which_stands_for_a_promise(self) -> None:
        with open(f"{ROOT}/docs/PROMISES.md", encoding="utf-8") as promises:
            rows = {line.split("|")[1].strip() for line in promises if line.startswith("| ")}
        for folder in glob.glob(f"{ROOT}/crates/*/must-fail"):
            edits = sorted(os.listdir(folder))
            self.assertLessEqual(len(edits), 2, folder)
            for name in edits:
                with open(f"{folder}/{name}", encoding="utf-8") as edit:
                    named = [line.removeprefix("promise: ").strip() for line in edit if line.startswith("promise: ")]
                self.assertTrue(named and named[0] in rows, f"{folder}/{name}: no line `promise: ROW` of docs/PROMISES.md")
