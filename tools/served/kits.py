"""The toolchain with other programs in place of its own, for builds that prove nothing."""

import os
import shutil
import subprocess

LARGE = 1 << 20
# A program in place of rattle.
UNCHECKED = """#!/bin/sh
[ "$1" = check ] || exec '{rattle}' "$@"
"""
# A program in place of clang, and of the other tools that the same file is when it is called by other names.
CLANG = """#include <stdlib.h>
#include <string.h>
#include <unistd.h>

int main(int count, char **arguments) {{
    {before}
    execv("{clang}", arguments);
    return 127;
}}
"""


def kit() -> str:
    """Returns the folder of the toolchain."""
    doc = subprocess.run([*os.environ.get("RT", "rt").split(), "doc"], capture_output=True, text=True, check=True).stdout
    return os.path.dirname(doc.strip())


def link_all(source: str, folder: str, but: tuple[str, ...] = ()) -> None:
    os.makedirs(folder, exist_ok=True)
    for name in os.listdir(source):
        if name not in but:
            os.symlink(f"{source}/{name}", f"{folder}/{name}")


def trying(folder: str) -> str:
    """Makes a toolchain for trials: beside a trial its `rt` does not check the crate, which looks only for reserved names and takes as long as
    the build. Returns its command rt."""
    of = kit()
    link_all(of, folder, ("bin",))
    # (rt finds its toolchain from the place of its own file)
    shutil.copytree(f"{of}/bin", f"{folder}/bin", ignore=lambda at, names: [n for n in names if os.path.getsize(f"{at}/{n}") > LARGE])
    link_all(f"{of}/bin", f"{folder}/bin", (*os.listdir(f"{folder}/bin"), "rattle"))
    with open(f"{folder}/bin/rattle", "w", encoding="utf-8") as script:
        script.write(UNCHECKED.format(rattle=f"{of}/bin/rattle"))
    os.chmod(f"{folder}/bin/rattle", 0o755)
    return f"{folder}/bin/rt"


def with_clang(folder: str, before: str) -> str:
    """Makes a toolchain for trials whose clang first executes the C statements in `before`, which may use `count` and `arguments`. Returns
    its command rt."""
    of, rt = kit(), trying(folder)
    os.remove(f"{folder}/toolchain")
    link_all(f"{of}/toolchain", f"{folder}/toolchain", ("bin",))
    link_all(f"{of}/toolchain/bin", f"{folder}/toolchain/bin", ("clang", "ld.lld"))
    with open(f"{folder}/clang.c", "w", encoding="utf-8") as source:
        source.write(CLANG.format(before=before, clang=f"{of}/toolchain/bin/clang"))
    subprocess.run(["cc", "-O1", "-o", f"{folder}/toolchain/bin/clang", f"{folder}/clang.c"], check=True)
    os.symlink("clang", f"{folder}/toolchain/bin/ld.lld")
    return rt
