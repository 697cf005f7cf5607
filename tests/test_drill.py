"""The drill over the program's standard input: the worked runs, and longer runs."""

import os
import subprocess

from support.case import Case
from support.program import TIMEOUT, PROGRAM, Ended, ran
from support.runs import worked_runs

# Lines that are no request: an unknown word, too few or too many words, wrong spaces, no number or one out of range.
BAD_LINES = (
    "fly 1", "Add 1 1", "add", "add 1", "add 1 1 1", "add 1 1 ", " add 1 1", "add  1 1", "add 1 1\r", "add\t1 1",
    "add 0 1", "add 65 1", "add 1 0", "add 1 17", "add +1 1", "add -1 1", "add 1x 1", "add 1 \u00e9", "add 257 1",
    "add 18446744073709551617 1", "remove", "remove 1 1", "join 1", "drop 1 65", "reset 0", "confirm 1",
    "confirm 1 18446744073709551616", "order 1 1", "order 0 1 add 1 1", "order 17 1 add 1 1", "order 1 1 order 1 1 add 1 1",
    "order 1 1 take 1 2", "take 1", "take 1 2 3", "clear 65 1", "data 1 2 3 1", "data 1 2 3 1 Abort",
    "data 1 2 3 1 abort 0", "receipt 1 2 3", "receipt 1 2 3 1 1", "resend ", "resend 1", "hold 1", "flush 1", "crash 1",
    "show 1", "check 1", "version", "version 1", "version 02", "version 2 2",
)


def drill_text(text: str) -> Ended:
    return ran("drill", given=text.encode())


class WorkedRuns(Case):
    """Tries each run in the folder `drill`: its input and its output."""

    def test_each_is_printed(self) -> None:
        runs = worked_runs()
        self.assertGreater(len(runs), 30)
        for name, given, wanted in runs.values():
            with self.subTest(run=name):
                self.assertEqual(ran("drill", given=given), Ended(0, wanted.decode(), ""))

    def test_input_in_pieces(self) -> None:
        """Each line is answered as it is read, before the end of the input."""
        for name, given, wanted in worked_runs().values():
            with self.subTest(run=name):
                drill = subprocess.Popen([PROGRAM, "drill"], stdin=subprocess.PIPE, stdout=subprocess.PIPE)
                assert drill.stdin
                printed = b""
                for line in given.splitlines(keepends=True)[:40]:
                    for piece in (line[:3], line[3:]):
                        drill.stdin.write(piece)
                        drill.stdin.flush()
                drill.stdin.write(b"".join(given.splitlines(keepends=True)[40:]))
                printed += drill.communicate(timeout=TIMEOUT)[0]
                self.assertEqual((drill.returncode, printed.decode()), (0, wanted.decode()))

    def test_an_answer_does_not_wait_for_the_next_line(self) -> None:
        with subprocess.Popen([PROGRAM, "drill"], stdin=subprocess.PIPE, stdout=subprocess.PIPE) as drill:
            assert drill.stdin and drill.stdout
            for line, answer in ((b"add 1 1\n", b"done 1\n"), (b"reset 1\n", b"finished 2\n"), (b"", b"signal 1 1\n")):
                drill.stdin.write(line)
                drill.stdin.flush()
                self.assertEqual(drill.stdout.readline(), answer)
            drill.stdin.close()
            self.assertEqual(drill.wait(TIMEOUT), 0)


class LongRuns(Case):
    def test_a_crash_after_many_steps(self) -> None:
        """Every settled step is there again, far beyond a thousand."""
        for count in (1_002, 3_000):
            text = "add 1 1\n" + "reset 1\n" * (count - 1) + "crash\n" + "reset 1\ncheck\nshow\n"
            wanted = "done 1\n" + "".join(f"finished {step}\nsignal 1 {step - 1}\n" for step in range(2, count + 1))
            wanted += f"opened {count}\nfinished {count + 1}\nsignal 1 {count}\nlegal\n"
            wanted += f"view {count + 1} {count + 1}\nnode 1 1 ready 0 {count} 0\n"
            self.assertEqual(drill_text(text), Ended(0, wanted, ""))

    def test_a_second_epoch_and_a_second_crash(self) -> None:
        text = "add 1 1\nadd 2 1\njoin 1 2\n"
        wanted = "done 1\ndone 2\ndone 3\n"
        step, number = 3, 0
        for epoch in range(1, 41):
            # abort to 2, ack back, ready to 2; each is taken and cleared
            text += "reset 1\ntake 1 2\nclear 1 2\ntake 2 1\nclear 2 1\ntake 1 2\nclear 1 2\ncrash\n"
            there, back = number * 2 + 1, number + 1
            wanted += f"started {step + 1}\ndata 1 2 {there} abort\n"
            wanted += f"taken {step + 2}\nreceipt 1 2 {there}\ndata 2 1 {back} ack\n"
            wanted += f"cleared {step + 3}\n"
            wanted += f"taken {step + 4}\nreceipt 2 1 {back}\nsignal 1 {epoch}\ndata 1 2 {there + 1} ready\n"
            wanted += f"cleared {step + 5}\n"
            wanted += f"taken {step + 6}\nreceipt 1 2 {there + 1}\nsignal 2 {epoch}\n"
            wanted += f"cleared {step + 7}\nopened {step + 7}\n"
            step, number = step + 7, number + 1
        self.assertEqual(drill_text(text), Ended(0, wanted, ""))

    def test_packets_of_a_second_link(self) -> None:
        """The incarnation of both its lanes is the number of the step that joined the link."""
        text = "add 1 1\nadd 2 1\nadd 3 1\njoin 1 2\njoin 2 3\nreset 2\n"
        wanted = "".join(f"done {step}\n" for step in range(1, 6)) + "started 6\ndata 2 1 1 abort\ndata 2 3 1 abort\n"
        text += "data 2 3 4 1 abort\ndata 2 3 5 1 abort\ndata 3 2 4 1 ack\ndata 3 2 5 1 ack\n"
        wanted += "no 12 NoLink\ntaken 7\nreceipt 2 3 1\ndata 3 2 1 ack\nno 12 NoLink\ntaken 8\nreceipt 3 2 1\n"
        self.assertEqual(drill_text(text), Ended(0, wanted, ""))

    def test_a_last_line_without_its_end(self) -> None:
        self.assertEqual(drill_text("add 1 1\nadd 2 1"), Ended(0, "done 1\ndone 2\n", ""))

    def test_lines_that_are_bad(self) -> None:
        """Lines are counted from 1, including skipped ones."""
        bad = ["add 1", "add  1 1", " add 1 1", "add 1 1 ", "add 1 1\r", "fly", "add 65 1", "#" * 513]
        text = "".join(f"{line}\n" for line in ["# a comment", "", *bad]) + "#" * 512
        self.assertEqual(drill_text(text), Ended(0, "".join(f"bad line {line}\n" for line in range(3, 11)), ""))
        self.assertEqual(ran("drill", given=b"\xff\nadd 1 1\n"), Ended(0, "bad line 1\ndone 1\n", ""))
        self.assertEqual(ran("drill", given=b"\xff\n#\xff\n\n\xff"), Ended(0, "bad line 1\nbad line 4\n", ""))

    def test_the_limit_of_a_line(self) -> None:
        """A line of at most 512 bytes is read. A longer one is bad, even if it is a comment."""
        lines = ["#".ljust(length, "a") for length in (512, 513, 1_500)]
        lines += ["add " + "0" * (length - 7) + "1 1" for length in (512, 513)]
        self.assertEqual([len(line) for line in lines], [512, 513, 1_500, 512, 513])
        text = "".join(f"{line}\n" for line in lines)
        self.assertEqual(drill_text(text), Ended(0, "bad line 2\nbad line 3\ndone 1\nbad line 5\n", ""))

    def test_more_bytes_than_reads(self) -> None:
        """The limit of 1,048,576 counts reads, and a read asks for 512 bytes."""
        self.assertEqual(drill_text(("#".ljust(511, "a") + "\n") * 2_400 + "add 1 1\n"), Ended(0, "done 1\n", ""))

    def test_the_most_links(self) -> None:
        """In a ring with chords, each of 64 nodes is linked to the next and the next but one."""
        pairs = [(node, (node + step) % 64 + 1) for node in range(1, 65) for step in (0, 1)]
        text = "".join(f"add {node} 1\n" for node in range(1, 65)) + "".join(f"join {a} {b}\n" for a, b in pairs) + "join 1 4\n"
        wanted = "".join(f"done {step}\n" for step in range(1, 193)) + "no 14 LinksFull\n"
        self.assertEqual(drill_text(text), Ended(0, wanted, ""))

    def test_a_flush_settles_at_most_256(self) -> None:
        text = "add 1 1\nhold\n" + "reset 1\n" * 257 + "flush\n" * 2
        wanted = "done 1\n" + "".join(f"pending {step}\n" for step in range(2, 259))
        wanted += "".join(f"finished {step}\nsignal 1 {step - 1}\n" for step in range(2, 258)) + "settled 257\n"
        wanted += "finished 258\nsignal 1 257\nsettled 258\n"
        self.assertEqual(drill_text(text), Ended(0, wanted, ""))

    def test_as_many_are_held_again(self) -> None:
        """At most 1,024 steps are held; once these are settled, the same number again."""
        text = "add 1 1\nhold\n" + "reset 1\n" * 1_025 + "flush\n" * 4 + "reset 1\n" * 1_024
        wanted = "done 1\n" + "".join(f"pending {step}\n" for step in range(2, 1_026)) + "no 20 PendingFull\n"
        for last in (257, 513, 769, 1_025):
            wanted += "".join(f"finished {step}\nsignal 1 {step - 1}\n" for step in range(last - 255, last + 1))
            wanted += f"settled {last}\n"
        wanted += "".join(f"pending {step}\n" for step in range(1_026, 2_050))
        self.assertEqual(drill_text(text), Ended(0, wanted, ""))

    def test_each_line_that_is_bad(self) -> None:
        """Each bad line is tried alone, without a line feed after it."""
        for line in BAD_LINES:
            with self.subTest(line=line):
                self.assertEqual(drill_text(line), Ended(0, "bad line 1\n", ""))

    def test_no_input(self) -> None:
        """If standard input is closed, it can't be read."""
        done = subprocess.run(["sh", "-c", 'exec "$0" drill <&-', PROGRAM], capture_output=True, timeout=TIMEOUT)
        self.assertEqual(Ended(done.returncode, done.stdout.decode(), done.stderr.decode()), Ended(3, "", "resetd: Read\n"))

    def test_an_input_that_is_a_folder(self) -> None:
        folder = os.open(self.folder, os.O_RDONLY)
        self.addCleanup(os.close, folder)
        done = subprocess.run([PROGRAM, "drill"], stdin=folder, capture_output=True, timeout=TIMEOUT)
        self.assertEqual((done.returncode, done.stdout, done.stderr), (3, b"", b"resetd: Read\n"))
