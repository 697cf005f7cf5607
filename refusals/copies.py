"""Copies of the crates, in which mutants are tried."""

import os
import shutil
import subprocess

# The crates in their order, and what each stands on.
Depends = dict[str, list[str]]
RT = os.environ.get("RT", "rt").split()


def read_depends() -> Depends:
    depends: Depends = {}
    for line in open("crates.txt"):
        line = line.split("#")[0].strip()
        if ":" in line:
            head, tail = line.split(":", 1)
            depends[head.split()[0]] = tail.split()
    return depends


def libraries(crate: str, depends: Depends) -> set[str]:
    """The repository's crates that a crate stands on, itself included."""
    found = {crate}
    for other in depends.get(crate, []):
        if other in depends:
            found |= libraries(other, depends)
    return found


def copy_crate(crate: str, copy: str) -> None:
    """Puts a crate into a copy of the repository as it stands in the repository, with the work that its checks kept."""
    shutil.rmtree(os.path.join(copy, "crates", crate), ignore_errors=True)
    subprocess.run(["cp", "-a", "--reflink=auto", f"crates/{crate}", os.path.join(copy, "crates")], check=True)
    shutil.rmtree(os.path.join(copy, "crates", crate, "must-fail"), ignore_errors=True)


def copy_sources(copy: str) -> str:
    """Makes a copy of all crates without the results of their checks: `rt` begins there with the results of the same crates elsewhere
    on this machine. Returns the copy."""
    subprocess.run(["git", "init", "-q", copy], check=True)
    for name in ("crates.txt", "HANDLES"):
        shutil.copy(name, copy)
    shutil.copytree("crates", os.path.join(copy, "crates"), ignore=shutil.ignore_patterns("out", "must-fail"))
    return copy


def make_copy(copy: str, needed: set[str], depends: Depends) -> str:
    """Makes a copy of the repository with these crates alone."""
    subprocess.run(["git", "init", "-q", copy], check=True)
    with open(os.path.join(copy, "crates.txt"), "w") as out:
        out.writelines(f"{crate}: {' '.join(depends[crate])}\n" for crate in depends if crate in needed)
    shutil.copy("HANDLES", copy)
    os.mkdir(os.path.join(copy, "crates"))
    for crate in needed:
        copy_crate(crate, copy)
    return copy
