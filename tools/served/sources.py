"""Copies the crates for a trial build, and plants mutants in the copy."""

import os
import shutil
import sys

sys.dont_write_bytecode = True
ROOT = os.path.dirname(os.path.dirname(os.path.dirname(os.path.abspath(__file__))))
# The tests of the crates: no check reads a file that ends in .rt.txt.
UNITS = f"{ROOT}/tests/units"
# Their program waits, so that it can be copied while it is tried; with the variable it runs.
WAITING = """#include <stdlib.h>
#include <unistd.h>

static void __attribute__((constructor)) wait_to_be_taken(void) {
    while (!getenv("MUTANT")) pause();
}
"""
sys.path.insert(0, f"{ROOT}/refusals")
import catalogue  # noqa: E402
import schemata  # noqa: E402


def read(path: str) -> str:
    with open(path, encoding="utf-8") as file:
        return file.read()


def write(path: str, text: str) -> None:
    with open(path, "w", encoding="utf-8") as file:
        file.write(text)


def copy(folder: str) -> None:
    """Copies the crates, without the files that the toolchain keeps in them."""
    for name in ("crates.txt", "HANDLES"):
        shutil.copy(f"{ROOT}/{name}", folder)
    shutil.copytree(f"{ROOT}/crates", f"{folder}/crates", ignore=shutil.ignore_patterns("out", "must-fail"))


def copy_units(folder: str) -> None:
    """Copies the tests of tests/units as a crate beside the others in a copy of them, over each library that they list."""
    for at, _, names in os.walk(UNITS):
        for name in names:
            inner = os.path.relpath(os.path.join(at, name), UNITS).removesuffix(".rt.txt")
            os.makedirs(os.path.dirname(f"{folder}/crates/units/src/{inner}"), exist_ok=True)
            shutil.copy(os.path.join(at, name), f"{folder}/crates/units/src/{inner}.rt")
    os.mkdir(f"{folder}/crates/units/c")
    write(f"{folder}/crates/units/c/waiting.c", WAITING)
    lines = [line.partition(":") for line in read(f"{folder}/crates.txt").splitlines() if line and not line.startswith("#")]
    own = [head.split()[0] for head, _, _ in lines if os.path.isfile(f"{folder}/crates/{head.split()[0]}/src/lib.rt")]
    libraries = {word for _, _, below in lines for word in below.split()} | {name for name in own if name.startswith(("coord_", "proxy_"))}
    write(f"{folder}/crates.txt", read(f"{folder}/crates.txt").rstrip("\n") + f"\nunits: {' '.join(sorted(libraries))}\n")


def plant(folder: str, mutant: str) -> None:
    """Plants a mutant. Each old text of it must occur once in its file."""
    body = catalogue.find(mutant)
    for exchange in body.exchanges:
        path = f"{folder}/crates/{body.crate}/{exchange.file}"
        if exchange.file.startswith("proofs/"):
            continue
        if read(path).count(exchange.old) != 1:
            sys.exit(f"{mutant}: the text to replace does not occur exactly once in {path}: {exchange.old}")
        write(path, read(path).replace(exchange.old, exchange.new))


def plant_schemata(folder: str, mutants: list[str]) -> None:
    """Plants mutants, one of which the environment chooses."""
    try:
        schemata.plant(folder, [catalogue.find(mutant) for mutant in mutants])
    except schemata.Unfit as unfit:
        sys.exit(f"a mutant can't be chosen: {unfit}")
