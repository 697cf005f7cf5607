"""A test of the members' library for C, and the library with counted allocations."""

import ctypes
import os
import subprocess

from .case import Case
from .memberlib import PATH, Library

ARCHIVE = PATH.removesuffix(".so") + ".a"
# The library allocates by these three functions alone. With --wrap, the linker directs the calls to the functions below.
COUNTING = r"""
#include <stdlib.h>
void *__real_malloc(size_t), *__real_realloc(void *, size_t);
void __real_free(void *);
long allocations, kept, refused;
static int refuses(void) { return ++allocations == refused; }
void *__wrap_malloc(size_t size) {
    void *given = refuses() ? 0 : __real_malloc(size);
    kept += given != 0;
    return given;
}
void *__wrap_realloc(void *old, size_t size) {
    void *given = refuses() ? 0 : __real_realloc(old, size);
    kept += given != 0 && !old;
    return given;
}
void __wrap_free(void *old) {
    kept -= old != 0;
    __real_free(old);
}
"""
WRAPPED = [f"-Wl,--wrap={name}" for name in ("malloc", "realloc", "free")]


class OfLibrary(Case):
    """A test that needs the library that RESETD_MEMBER names."""

    programs: tuple[str, ...] = ("RESETD_MEMBER",)

    def setUp(self) -> None:
        super().setUp()
        self.needs("a C compiler: for the members' library", os.path.exists(PATH))


class CountedLibrary(Library):
    """The library with counted allocations, any one of which can be refused."""

    def __init__(self, folder: str) -> None:
        source, made = f"{folder}/counting.c", f"{folder}/counted.so"
        with open(source, "w", encoding="ascii") as file:
            file.write(COUNTING)
        subprocess.run(["cc", "-O1", "-shared", "-fPIC", *WRAPPED, "-o", made, source, "-Wl,--whole-archive", ARCHIVE,
                        "-Wl,--no-whole-archive"], check=True)
        super().__init__(made)
        self._allocations, self._kept, self._refused = (
            ctypes.c_long.in_dll(self._calls, name) for name in ("allocations", "kept", "refused"))

    @property
    def allocations(self) -> int:
        """Returns the number of allocations since the last call of `count_from_here`."""
        return self._allocations.value

    @property
    def kept(self) -> int:
        """Returns the number of allocations that were never freed."""
        return self._kept.value

    def count_from_here(self, refused: int = 0) -> None:
        """Restarts the count of allocations at 1, and refuses the allocation with this number; 0 refuses none."""
        self._allocations.value, self._refused.value = 0, refused
