"""The proxy reads lines as the server does: each line has the same answer at both. And which lines it alone reads."""

from __future__ import annotations

import socket
import unittest

from case import DEADLINE, Case, Client

ORDER = b'{"op":"add","client":1,"number":1,"node":1,"group":1}'
LINES = [
    b"", b" ", b"\r", b"fly", b"null", b"[]", b"1", b'"show"', b"{}", b'{"op":1}', b'{"op":null}', b'{"op":"fly"}',
    b'{"op":"Show"}', b'{"op":"show","x":1}', b'{"op":"show"} x', b'{"op":"show",}', b"{'op':'show'}", b'{"op":"show"}\r',
    b' { "op" : "show" } ', b'{"op":"fly","op":"show"}', b'{"\\u006fp":"\\u0073how"}', b'{"op":"sh\x00ow"}', b'\xff', b'{"op":"\xff"}',
    b'\xef\xbb\xbf{"op":"show"}', b'{"op":"\\ud800"}', b'{"op":"\\ud83d\\ude00"}', b'{"\\udc00":1}',
    b'{"op":"resend"}', b'{"op":"resend","node":1}', b'{"op":"close","x":1}',
    b'{"op":"add","client":1,"number":1,"node":1}', b'{"op":"remove","client":1,"number":1}',
    b'{"op":"join","client":1,"number":1,"a":1}', b'{"op":"reset","client":1,"node":1}', b'{"op":"confirm","number":1,"node":1,"epoch":1}',
    *(ORDER.replace(b'"node":1', b'"node":' + value) for value in (
        b"0", b"65", b"-1", b"-0", b"1.0", b"1e0", b'"1"', b"true", b"null", b"[1]", b"{}", b"01", b"+1", b"0x1", b"NaN",
        b"Infinity", b"-Infinity", b"1e999", b"-1e999", b"9" * 30, b"9" * 400, b"1_0", b".5", b"5.", b"1E+0", b"2")),
    *(ORDER.replace(b'"number":1', b'"number":' + value) for value in (
        b"18446744073709551615", b"18446744073709551616", b"-0", b"-1", b"1.0", b"0")),
    *(ORDER.replace(b'"client":1', b'"client":' + value) for value in (b"0", b"17", b"99999999999999999999")),
    *(b"[" * depth + b"]" * depth for depth in (1, 126, 127, 128, 129, 256)),
    *(b'{"op":"show","x":' + b"[" * depth + b"]" * depth + b"}" for depth in (125, 126, 127, 128)),
    b'{"op":"' + b"[" * 200 + b'"}',
    b'{"op":"show"' + b" " * 499 + b"}", b'{"op":"show"' + b" " * 500 + b"}", b" " * 512, b" " * 513, b"x" * 5_000,
]


UNNUMBERED = [b'{"op":"add","node":1,"group":1}', b'{"op":"remove","node":1}', b'{"op":"join","a":1,"b":2}', b'{"op":"drop","a":1,"b":2}',
              b'{"op":"reset","client":1,"number":1,"node":1,"epoch":1}', b'{"op":"watch","node":1}']


def answers_of(client: Client) -> list[bytes]:
    """Sends each line once the last one was answered, and returns the answers."""
    with client:
        answers = []
        for line in LINES:
            client.send(line + b"\n")
            answers.append(client.line())
    return answers


class Lines(Case):
    nodes = 2

    def test_each_line_has_the_answer_of_the_server(self) -> None:
        host, port = self.server.address.split(":")
        expected = answers_of(Client(socket.create_connection((host, int(port)), DEADLINE)))
        for line, answer, of_server in zip(LINES, answers_of(self.client()), expected):
            with self.subTest(line=line[:60]):
                self.assertEqual(answer, of_server)

    def test_only_confirms_and_resets_go_without_a_number(self) -> None:
        with self.proxy.connect() as client:
            for line in UNNUMBERED:
                client.send(line + b"\n")
                self.assertEqual(client.reply(), {"fault": "BadRequest"}, line)

    def test_the_first_of_two_equal_members_does_not_count(self) -> None:
        """What the proxy forwards is what it read."""
        with self.proxy.connect() as client:
            client.send(b'{"op":"fly","op":"reset", "node":2,"node":1}\n')
            self.assertEqual(client.reply()["kind"], "started")
        line = self.proxy.await_audited("the order", lambda line: line["event"] == "answered")
        self.assertEqual(line["line"], {"op": "reset", "node": 1})

    def test_a_line_without_an_end(self) -> None:
        for text in (b"x", b'{"op":"show"}', b"x" * 5_000):
            with self.proxy.connect() as client:
                client.send(text)
                client.socket.shutdown(socket.SHUT_WR)
                self.assertEqual(client.reply(), {"fault": "Unfinished"})
                self.assertEqual(client.line(), b"")


if __name__ == "__main__":
    unittest.main()
