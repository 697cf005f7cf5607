"""The list of promises, the mutants that break them, and the rule that each name has one meaning."""

import os
import pathlib
import shutil
import subprocess
import sys

from support.case import Case, tool
from support.program import ROOT

sys.path.insert(0, f"{ROOT}/tools")
from statements.sources import Source, stated_in  # noqa: E402

CONNECTIONS = "crates/coord_admin/specs/Connections.antt"


class Copied(Case):
    takes = 40

    def copy(self) -> pathlib.Path:
        """Copies everything from which the list is made."""
        copy = pathlib.Path(self.folder) / "repository"
        for part in ("crates.txt", "docs/PROMISES.md", "docs/names.txt", "docs/retired.txt", "docs/promises.lock", "tools/names", "tools/promises"):
            (copy / part).parent.mkdir(parents=True, exist_ok=True)
            shutil.copy(f"{ROOT}/{part}", copy / part)
        for part in ("refusals", "tools/statements"):
            shutil.copytree(f"{ROOT}/{part}", copy / part)
        for crate in sorted(os.listdir(f"{ROOT}/crates")):
            for part in ("src", "specs"):
                if os.path.isdir(f"{ROOT}/crates/{crate}/{part}"):
                    shutil.copytree(f"{ROOT}/crates/{crate}/{part}", copy / "crates" / crate / part)
        return copy

    def compare(self, copy: pathlib.Path, script: str = "promises") -> tuple[int, str]:
        """Returns the status and the lines of the comparison."""
        ran = subprocess.run([copy / "tools" / script], capture_output=True, text=True, check=False)
        return ran.returncode, ran.stdout + ran.stderr

    def change(self, copy: pathlib.Path, file: str, old: str, new: str) -> None:
        path = copy / file
        text = path.read_text()
        self.assertEqual(text.count(old), 1, file)
        path.write_text(text.replace(old, new))


class Promises(Copied):
    def test_the_list_is_of_these_sources(self) -> None:
        ran = subprocess.run([tool("promises")], capture_output=True, text=True, check=False)
        self.assertEqual(ran.returncode, 0, ran.stdout[-3_000:])

    def test_a_weakened_statement_is_reported_by_its_file(self) -> None:
        copy = self.copy()
        self.change(copy, CONNECTIONS, "AllServed d [] e = e ≡ d", "AllServed d [] e = Unit {0}")
        status, said = self.compare(copy)
        self.assertEqual(status, 1, said)
        self.assertIn("coord_admin.specs.Connections is changed", said)

    def test_a_clause_that_is_gone_is_reported_by_its_file(self) -> None:
        copy = self.copy()
        self.change(copy, "crates/coord_admin/src/connections.rt",
                     "    ensures failed { OnErr result ((last", "    ensures broken { OnErr result ((last")
        status, said = self.compare(copy)
        self.assertEqual(status, 1, said)
        self.assertIn("docs/promises.lock: coord_admin connections is changed", said)

    def test_a_row_that_names_what_is_not_there(self) -> None:
        copy = self.copy()
        table = copy / "docs/PROMISES.md"
        table.write_text(table.read_text() + "\n| Nothing | nothing | coord_admin `serve_everybody` (`always`) |\n")
        status, said = self.compare(copy)
        self.assertEqual(status, 1, said)
        self.assertIn("a row names `serve_everybody`, which is not in coord_admin or below", said)

    def test_a_row_without_a_title_of_its_own(self) -> None:
        for title in ("", "its faults", "Exact checker"):
            with self.subTest(title):
                copy = self.copy()
                table = copy / "docs/PROMISES.md"
                table.write_text(table.read_text() + f"\n| {title} | nothing | coord_check `check` (`legal`) |\n")
                status, said = self.compare(copy)
                self.assertEqual(status, 1, said)
                self.assertIn("a row has no title", said)
                shutil.rmtree(copy)

    def test_a_row_that_names_a_clause_of_another_function(self) -> None:
        copy = self.copy()
        table = copy / "docs/PROMISES.md"
        table.write_text(table.read_text() + "\n| Nothing | nothing | coord_admin `serve_connections` (`whole`) |\n")
        status, said = self.compare(copy)
        self.assertEqual(status, 1, said)
        self.assertIn("a row names `whole`, which is not a clause of connections::serve_connections", said)

    def test_comments_and_layout_are_no_change(self) -> None:
        copy = self.copy()
        self.change(copy, CONNECTIONS, "  AllServed d [] e = e ≡ d", "  -- none\n  AllServed d [] e =   e ≡ d  -- so")
        status, said = self.compare(copy)
        self.assertEqual(status, 0, said)


class Weakened(Copied):
    """Weakened statements: each changes the digest of its file. The bounds `Wait`, `Net` and `Threads` weaken most, because a
    call that need not return meets every clause."""

    CASES = (
        ("a command may wait", "coord_commands/src/running.rt", "pub fn run_in<'a, ", "pub fn run_in<'a, T: Wait, "),
        ("an append may wait", "coord_journal/src/journal.rt", "pub fn append(", "pub fn append<T: Wait>("),
        ("a run of events may wait", "coord_ledger/src/event_driver.rt", "pub fn run_events<", "pub fn run_events<T: Wait, "),
        ("a run of events may use the network", "coord_ledger/src/event_driver.rt", "pub fn run_events<", "pub fn run_events<T: Net, "),
        ("a flight's commit may start threads", "coord_engine/src/own_flight.rt", "pub(crate) fn commit(", "pub(crate) fn commit<T: Threads>("),
        ("releases may be dropped", "coord_ledger/src/releases.rt", "pub struct Releases", "#[derive(Drop)]\npub struct Releases"),
        ("a ticket may be dropped", "coord_ledger/src/ticket.rt", "pub struct Ticket", "#[derive(Drop)]\npub struct Ticket"),
        ("a flight may be dropped", "coord_ledger/src/flight.rt", "pub struct Flight", "#[derive(Drop)]\npub struct Flight"),
        ("anybody may make what is released", "coord_engine/src/released.rt", "pub(crate) fn new(", "pub fn new("),
        ("who serves needs no crew", "coord_server/src/threads.rt", "    _crew: &Crew<L>,\n", ""),
        ("a crew need not have eight workers", "coord_server/src/threads.rt", "    ghost eight: { vec_len workers ≡ 8 },\n", ""),
        ("an engine need not begin with empty shares", "coord_server/src/threads.rt", "    pub ghost unused: { own ≡ [] },\n", ""),
        ("an engine serves more steps", "coord_server/src/serving.rt", "_STEPS: usize = 262_144", "_STEPS: usize = 262_145"),
        ("a law requires more", "coord_world/src/laws.rt", "pub fn once_per_wave()\n", "pub fn once_per_wave()\n    requires { ⊥ }\n"),
        ("callers need not fail to fail", "coord_admin/src/callers.rt",
         "ghost failed: { Self → Self → Type 0 } = { λ _ _. ⊤ };", "ghost failed: { Self → Self → Type 0 } = { λ _ _. ⊥ };"),
        ("a disk's model promises less", "coord_disk/src/disk.rt", "ghost laws: { IsModel model };", "ghost laws: { ⊤ };"),
        ("a field is given away", "coord_ledger/src/ticket.rt", "pub(crate) step: u64", "pub step: u64"),
    )
    # changes that leave the statements as they are
    SAME = (
        ("layout", "coord_engine/src/closed.rt", "pub store:", "pub store :"),
        ("a body", "coord_ledger/src/releases.rt", "self.", "self . "),
        ("a comment", "coord_ledger/src/ticket.rt", "pub struct Ticket", "// It is spent.\npub struct Ticket"),
    )

    def stated(self, file: str, text: str) -> str:
        """Returns the statements of a file of the crates if this is its text."""
        crate, path = file.split("/")[0], pathlib.Path(self.folder) / "crates" / file
        path.parent.mkdir(parents=True, exist_ok=True)
        path.write_text(text)
        return stated_in(Source(pathlib.Path(self.folder), crate, path))

    def test_each_weakened_statement_is_noticed(self) -> None:
        for what, file, old, new in self.CASES + self.SAME:
            with self.subTest(what):
                text = pathlib.Path(f"{ROOT}/crates/{file}").read_text()
                self.assertIn(old, text)
                was, now = self.stated(file, text), self.stated(file, text.replace(old, new, 1))
                self.assertEqual(was == now, (what, file, old, new) in self.SAME)


class Broken(Copied):
    """From a row to the mutants that break its clauses, and back."""

    EDITS = "refusals/coord_check.edits"

    def test_what_breaks_a_row(self) -> None:
        ran = subprocess.run([tool("promises"), "--breaks", "Exact checker"], capture_output=True, text=True, check=False)
        self.assertEqual((ran.returncode, ran.stderr), (0, ""))
        self.assertIn("\n  coord_check search::check (first, legal, named)\n", ran.stdout)
        self.assertIn("\n    first: coord_check/links_before_nodes\n    legal: coord_check/letter_g_skipped\n", ran.stdout)
        ran = subprocess.run([tool("promises"), "--breaks", "Looks"], capture_output=True, text=True, check=False)
        self.assertIn("\n    by reach::connected: coord_look/takes_one_end\n", ran.stdout)

    def test_what_breaks_a_function(self) -> None:
        ran = subprocess.run([tool("promises"), "--breaks", "Lane::judge_clear"], capture_output=True, text=True, check=False)
        self.assertIn("\n    its clause: coord_link/repeated_clear\n", ran.stdout)
        self.assertNotIn("judge_take", ran.stdout)

    def test_a_body_that_names_no_clause(self) -> None:
        copy = self.copy()
        self.change(copy, self.EDITS, "% check (legal)", "% check (lawful)")
        status, said = self.compare(copy)
        self.assertEqual(status, 1, said)
        self.assertIn("coord_check/letter_g_skipped: search::check ensures no such clause: check (lawful)", said)

    def test_a_body_that_names_what_no_function_requires(self) -> None:
        copy = self.copy()
        self.change(copy, "refusals/coord_server.edits", "% coord_store Store::commit requires (fresh)", "% coord_store Store::commit requires (commits)")
        status, said = self.compare(copy)
        self.assertEqual(status, 1, said)
        self.assertIn("coord_server/writes_an_invented_step_and_waits: store::commit::Store::commit requires no such thing: ", said)

    def test_a_body_that_names_several_functions(self) -> None:
        copy = self.copy()
        self.change(copy, "refusals/coord_types.edits", "% Mode::name", "% name")
        status, said = self.compare(copy)
        self.assertEqual(status, 1, said)
        self.assertRegex(said, r"coord_types/\w+: coord_types has \d+ functions with this name, instead of one: name")

    def test_a_function_that_no_body_breaks_any_more(self) -> None:
        copy = self.copy()
        edits = copy / "refusals/coord_orders.edits"
        edits.write_text("".join(line for line in edits.read_text().splitlines(keepends=True) if not line.startswith("% ")))
        status, said = self.compare(copy)
        self.assertEqual(status, 1, said)
        self.assertIn("no mutant of refusals/ breaks coord_orders book::OrderBook::hear, which a row cites", said)

    def test_a_function_that_is_listed_as_not_tried(self) -> None:
        """The list has a function that was tried, and one that no row cites."""
        copy = self.copy()
        with open(copy / "refusals/not-tried.txt", "a", encoding="utf-8") as file:
            file.write("coord_check search::check\ncoord_check search::nothing\n")
        status, said = self.compare(copy)
        self.assertEqual(status, 1, said)
        self.assertIn("not-tried.txt: coord_check search::check: a mutant breaks it now", said)
        self.assertIn("not-tried.txt: coord_check search::nothing: no row cites such a function", said)


class Names(Copied):
    """Each name has one meaning."""

    DEFINED = "\nabbrev pub {0} : Type 0\n{0} = Unit {{0}}\n"

    def define(self, copy: pathlib.Path, file: str, name: str) -> None:
        with open(copy / file, "a", encoding="utf-8") as specs:
            specs.write(self.DEFINED.format(name))

    def test_each_name_has_one_meaning_or_a_reason(self) -> None:
        ran = subprocess.run([tool("names")], capture_output=True, text=True, check=False)
        self.assertEqual(ran.returncode, 0, ran.stdout[-3_000:])

    def test_a_cited_name_that_another_crate_defines_too(self) -> None:
        copy = self.copy()
        self.define(copy, "crates/coord_config/specs/Keys.antt", "IsWave")
        status, said = self.compare(copy, "names")
        self.assertEqual(status, 1, said)
        self.assertIn("cites `IsWave`, which 2 crates define: coord_config.specs.Keys, coord_world.specs.laws.Waves", said)

    def test_a_name_of_a_crate_below(self) -> None:
        copy = self.copy()
        self.define(copy, "crates/coord_commands/specs/Arguments.antt", "next_size")
        status, said = self.compare(copy, "names")
        self.assertEqual(status, 1, said)
        self.assertIn("next_size is defined in coord_commands.specs.Arguments and coord_ledger.specs.machine.Answers", said)

    def test_a_name_of_a_crate_aside(self) -> None:
        """Two crates that don't depend on each other may have the same name."""
        copy = self.copy()
        self.define(copy, "crates/coord_member/specs/Rule.antt", "next_size")
        status, said = self.compare(copy, "names")
        self.assertEqual(status, 0, said)

    def test_a_listed_name_that_is_no_double(self) -> None:
        copy = self.copy()
        with open(copy / "docs/names.txt", "a", encoding="utf-8") as names:
            names.write(": next_size\n")
        status, said = self.compare(copy, "names")
        self.assertEqual(status, 1, said)
        self.assertIn("docs/names.txt: next_size is no double any more", said)
        self.assertIn("docs/names.txt: next_size has no reason", said)

    def test_a_retired_term_is_refused(self) -> None:
        copy = self.copy()
        with open(copy / "docs/retired.txt", "a", encoding="utf-8") as retired:
            retired.write("crates\t(?i)\\bthingum\\w*\tthe thing's name\ndocs\txyzzy\tnothing\n")
        self.assertEqual(self.compare(copy, "names")[0], 0)
        with open(copy / CONNECTIONS, "a", encoding="utf-8") as specs:
            specs.write("-- A Thingummy.\n")
        status, said = self.compare(copy, "names")
        self.assertEqual(status, 1, said)
        self.assertRegex(said, r"Connections\.antt:\d+: Thingummy: write the thing's name \(docs/retired\.txt\)")

    def test_a_retired_term_may_be_a_name_of_code(self) -> None:
        """After `prose of`, the term is refused only in comments and strings, in each language."""
        copy = self.copy()
        with open(copy / "docs/retired.txt", "a", encoding="utf-8") as retired:
            retired.write("prose of crates,refusals\t\\bxyzzy\\b\tnothing\n")
        added = {CONNECTIONS: ("xyzzy : ℕ", "-- an xyzzy"), "crates/coord_admin/src/lib.rt": ("mod xyzzy;", "/// An xyzzy."),
                 "refusals/places.py": ("xyzzy = 1", "NAME = f\"an xyzzy {NAME}\""), "refusals/run": ("xyzzy = 1", "# an xyzzy")}
        for file, (code, _) in added.items():
            with open(copy / file, "a", encoding="utf-8") as text:
                text.write(f"{code}\n")
        self.assertEqual(self.compare(copy, "names")[0], 0)
        for file, (_, prose) in added.items():
            with open(copy / file, "a", encoding="utf-8") as text:
                text.write(f"{prose}\n")
        status, said = self.compare(copy, "names")
        self.assertEqual(status, 1, said)
        for file in added:
            self.assertRegex(said, rf"{file}:\d+: xyzzy: write nothing \(docs/retired\.txt\)")
