"""Who evaluates: the library libgossipmpi.so inside this package, by ctypes, or the program `gossipmpi`, by subprocess. Both give the same texts.

GOSSIPMPI_LIBRARY names a library, GOSSIPMPI a program. Without them it is the library of the package, then the package's program, then one on the PATH."""
import ctypes
import os
import shutil
import subprocess
from typing import List, NamedTuple, Optional, Tuple, Union

FINISHED, USAGE, REFUSED, WAITING, MEMORY, FAULTS = 0, 1, 2, 3, 4, 6
HERE = os.path.dirname(os.path.abspath(__file__))


class LibraryMissing(RuntimeError):
    """There is neither the library nor the program, or it can't be used."""


class Answer(NamedTuple):
    """A status of gossipmpi.h, and a text."""
    status: int
    text: str


class Library:
    """libgossipmpi.so, whose header is gossipmpi.h."""

    def __init__(self, path: str) -> None:
        self.path = path
        try:
            self.library = ctypes.CDLL(path)
            for name in ("eval", "check", "explain", "run", "run_says"):
                self.function(name)
        except (OSError, AttributeError) as why:
            raise LibraryMissing("%s can't be used: %s" % (path, why)) from None

    def function(self, name: str):
        function = getattr(self.library, "gossipmpi_" + name)
        function.restype = ctypes.c_uint8
        given = [ctypes.c_char_p, ctypes.c_size_t] * (2 if name.startswith("run") else 1)
        function.argtypes = [*given, ctypes.c_void_p, ctypes.c_size_t, ctypes.POINTER(ctypes.c_size_t)]
        return function

    def run_of(self, script: bytes, options: List[str]) -> Tuple[int, str, str]:
        words = " ".join(options).encode()
        (status, text), (again, said) = self.ask("run", script, words), self.ask("run_says", script, words)
        return MEMORY if MEMORY in (status, again) else status, text, said

    def ask(self, name: str, *given: bytes) -> Answer:
        room, needed, function = 4096, ctypes.c_size_t(0), self.function(name)
        bytes_given = [it for text in given for it in (text, len(text))]
        while True:
            out = ctypes.create_string_buffer(room)
            status = function(*bytes_given, out, room, ctypes.byref(needed))
            if needed.value <= room:
                return Answer(status, out.raw[:needed.value].decode("utf-8", "replace"))
            room = needed.value


class Program:
    """The program `gossipmpi`, whose words and statuses docs/SCRIPTS.md has."""

    def __init__(self, path: str) -> None:
        self.path = path

    def run(self, words, script: bytes) -> "subprocess.CompletedProcess[bytes]":
        try:
            return subprocess.run([self.path, *words], input=script, stdout=subprocess.PIPE, stderr=subprocess.PIPE)
        except OSError as why:
            raise LibraryMissing("%s can't be run: %s. GOSSIPMPI names the program, GOSSIPMPI_LIBRARY the library" % (self.path, why)) from None

    def run_of(self, script: bytes, options: List[str]) -> Tuple[int, str, str]:
        ran = self.run(["run", *options], script)
        if ran.returncode not in (FINISHED, USAGE, REFUSED, WAITING, MEMORY, FAULTS):
            raise LibraryMissing("%s ended with status %d: %s" % (self.path, ran.returncode, ran.stderr.decode("utf-8", "replace").strip()))
        return ran.returncode, ran.stdout.decode("utf-8", "replace"), ran.stderr.decode("utf-8", "replace")

    def ask(self, name: str, script: bytes) -> Answer:
        ran = self.run(["check"] if name == "check" else ["eval", "--explain"] if name == "explain" else ["eval"], script)
        out, said = ran.stdout.decode("utf-8", "replace"), ran.stderr.decode("utf-8", "replace")
        if ran.returncode not in (FINISHED, REFUSED, WAITING, MEMORY):
            raise LibraryMissing("%s ended with status %d: %s" % (self.path, ran.returncode, said.strip()))
        if ran.returncode == MEMORY or name == "check" and ran.returncode == FINISHED:
            return Answer(ran.returncode, "")
        if name == "explain":
            # (the message and the cause of a wait come first, and the library has neither)
            return Answer(ran.returncode, "".join(said.splitlines(True)[2:]) if ran.returncode == WAITING else said)
        return Answer(ran.returncode, said.partition("\n")[0] if ran.returncode == REFUSED else out)


Backend = Union[Library, Program]
_backend: Optional[Backend] = None


def _found() -> Backend:
    if os.environ.get("GOSSIPMPI"):
        return Program(os.environ["GOSSIPMPI"])
    library = os.environ.get("GOSSIPMPI_LIBRARY") or os.path.join(HERE, "libgossipmpi.so")
    if os.environ.get("GOSSIPMPI_LIBRARY") or os.path.exists(library):
        return Library(library)
    inside = os.path.join(HERE, "bin", "gossipmpi")
    return Program(inside if os.path.exists(inside) else shutil.which("gossipmpi") or "gossipmpi")


def backend() -> Backend:
    """Who evaluates; looked for once."""
    global _backend
    if _backend is None:
        _backend = _found()
    return _backend


def version() -> str:
    """Who evaluates, in words."""
    it = backend()
    return "library " + it.path if isinstance(it, Library) else it.run(["--version"], b"").stdout.decode().strip() or "program " + it.path
