"""The exceptions of the library: they have one base, are exported, are documented where they are raised, and are distinguished
by `resetctl`."""

from __future__ import annotations

import ast
import importlib
import inspect
import os
import pkgutil
import unittest
from collections.abc import Iterator

from case import ROOT, Case  # first: it adds the library to the path

import resetd_client
from resetd_client import BadWords, Member, Orders, Port, ResetdError, Unreadable

PACKAGE = os.path.join(ROOT, "client", "resetd_client")
INNER = {"Stopped", "NotSpelled", "NotCompared"}  # exceptions that the library catches itself
SAYING = ("address", "answers", "errors", "limits", "orders", "port", "topology", "watching")  # modules in which each function documents its exceptions


def exceptions() -> Iterator[type[BaseException]]:
    """Yields the exceptions that the package's modules define."""
    for found in pkgutil.iter_modules(resetd_client.__path__, "resetd_client."):
        for _, each in inspect.getmembers(importlib.import_module(found.name), inspect.isclass):
            if issubclass(each, BaseException) and each.__module__ == found.name and each.__name__ not in INNER:
                yield each


def raised(function: ast.FunctionDef) -> set[str]:
    """Returns the names of the exceptions that a function raises directly."""
    names = set[str]()
    for node in ast.walk(function):
        if isinstance(node, ast.Raise) and isinstance(node.exc, ast.Call) and isinstance(node.exc.func, ast.Name) \
                and node.exc.func.id[0].isupper():
            names.add(node.exc.func.id)
    return names


class Raised(unittest.TestCase):
    def test_all_have_one_base_and_are_exported(self) -> None:
        found = list(exceptions())
        self.assertGreater(len(found), 15)
        for each in found:
            with self.subTest(exception=each.__name__):
                self.assertTrue(issubclass(each, ResetdError))
                self.assertIn(each.__name__, resetd_client.__all__)

    def test_each_says_whether_it_needs_a_person(self) -> None:
        for each in exceptions():
            if each is ResetdError or not issubclass(each, ResetdError):
                continue
            text = " ".join((each.__doc__ or "").split()).lower()
            with self.subTest(exception=each.__name__):
                self.assertIn("needs a person" if each.needs_person else "needs no person", text)

    def test_what_a_function_raises_stands_in_its_text(self) -> None:
        for name in SAYING:
            with open(f"{PACKAGE}/{name}.py", encoding="utf-8") as file:
                functions = [node for node in ast.walk(ast.parse(file.read())) if isinstance(node, ast.FunctionDef)]
            for function in functions:
                if function.name.startswith("_") and function.name != "__init__":
                    continue
                for exception in raised(function):
                    with self.subTest(module=name, function=function.name):
                        self.assertIn(exception, ast.get_docstring(function) or "")


class Unread(Case):
    """The library's own files, if they can't be read."""

    def write(self, path: str, text: bytes) -> None:
        os.makedirs(os.path.dirname(path), exist_ok=True)
        with open(path, "wb") as file:
            file.write(text)

    def test_orders_that_do_not_read(self) -> None:
        """The messages say what to do, and the folder is free again."""
        path = f"{self.folder}/orders/order.json"
        for text in (b"no", b"[]", b"{}", b'"x"', b'{"answered": false, "number": 1, "order": 3}', b"\xff\xfe"):
            self.write(path, text)
            with self.subTest(text=text), self.assertRaisesRegex(Unreadable, "remove (it|the file)") as caught:
                Orders(self.port, 1, f"{self.folder}/orders")
            self.assertEqual(caught.exception.path, path)
        try:
            Orders(self.port, 1, f"{self.folder}/orders")
        except Unreadable as left:  # with everything that it refers to
            os.remove(path)
            self.orders().close()
            self.assertIsNotNone(left.__traceback__)
        else:
            self.fail("it was read")

    def test_starts_that_do_not_read(self) -> None:
        self.write(f"{self.folder}/orders/start-1.json", b"no\n")
        with self.assertRaisesRegex(Unreadable, "remove (it|the file)"):
            Member(self.port, self.orders(), 1, None, lambda _: None)

    def test_resetctl_distinguishes_them_from_wrong_arguments(self) -> None:
        self.server.ring(2)
        self.write(f"{self.folder}/{self.server.address.replace(':', '_')}/client-16/order.json", b"no")
        status, _, errors = self.run_resetctl("reset", "1")
        self.assertEqual((status, "remove the file" in errors), (4, True), errors)
        self.assertEqual(self.run_resetctl("--client", "3", "reset", "1")[0], 0)

    def test_wrong_arguments(self) -> None:
        for wrong in (lambda: Port("here"), lambda: self.orders(17)):
            self.assertRaises(BadWords, wrong)
            self.assertRaises(ValueError, wrong)  # the message for such arguments before the exception had a name
