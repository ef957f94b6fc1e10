"""The toolchain's own Python, as bench/prove and bench/wrong.py use it: the crates of this repository with the words of a check, and what `rt ci` kept.
A toolchain whose `rt ci` keeps nothing (rattle-kit-13b) is served too: there only what bench/prove built itself is taken."""
import concurrent.futures
import importlib.machinery
import importlib.util
import json
import os
import pathlib
import re
import shutil
import subprocess
import sys
import tempfile

ROOT = pathlib.Path(__file__).resolve().parent.parent


def load():
    """The module of the command `rt`."""
    said = subprocess.run(["rt", "doc"], stdout=subprocess.PIPE, universal_newlines=True).stdout.strip() if shutil.which("rt") else ""
    if not said:
        sys.exit("rt isn't on the PATH: install the Rattle toolchain first, as README's \"Get it\" says")
    place = os.path.join(os.path.dirname(said), "bin")
    sys.path.insert(0, place)
    loader = importlib.machinery.SourceFileLoader("rt_command", os.path.join(place, "rt"))
    module = importlib.util.module_from_spec(importlib.util.spec_from_loader("rt_command", loader))
    sys.modules["rt_command"] = module
    loader.exec_module(module)
    return module


class Sums:
    """Sums of files, kept for the next command on this machine: those of all libraries take a minute of one processor. A file is known by its place on the
    disk, its size and its times. What this gives is no verdict: `rt ci` sums all anew."""

    def __init__(self, sum_of):
        self.sum_of, self.new = sum_of, False
        self.at = pathlib.Path(tempfile.gettempdir(), f"gossipmpi-sums-{os.getuid()}.json")
        try:
            self.known = json.loads(self.at.read_text()) if self.at.stat().st_uid == os.getuid() else {}
        except (OSError, ValueError):
            self.known = {}

    def of(self, file):
        if not os.path.isfile(file):
            return self.sum_of(file)
        st = os.stat(file)
        key = f"{st.st_dev} {st.st_ino} {st.st_size} {st.st_mtime_ns}"
        if key not in self.known:
            self.known[key], self.new = self.sum_of(file), True
        return self.known[key]

    def keep(self):
        """Writes them, where there are new ones; another command's are lost where both write at once."""
        if self.new:
            with tempfile.NamedTemporaryFile("w", dir=self.at.parent, delete=False) as file:
                json.dump(self.known, file)
            os.replace(file.name, self.at)
            self.new = False


class Kit:
    def __init__(self):
        sys.dont_write_bytecode = True
        self.rt = load()
        self.lib = self.rt.rtlib
        self.sums = Sums(self.lib.sum_of)
        self.lib.sum_of = self.sums.of
        self.lib.Crate = self.rt.Crate
        self.rt.Crate.allowed = self.rt.handles_of(str(ROOT))
        self.crates = {it.name: it for it in self.lib.crates_below(str(ROOT))}

    def take(self):
        """Links the libraries that `rt ci` kept of just these files into the crates' out/, and gives the names of those that have none. One that
        bench/prove built of these files stays."""
        kept, lacking = self.kept(), []
        for crate in sorted((it for it in self.crates.values() if it.makes_rlib()), key=lambda it: len(it.below())):
            if any(it.name in lacking for it in crate.below()) or not self.takes(kept, crate):
                lacking.append(crate.name)
        self.sums.keep()
        return lacking

    def kept(self):
        """What `rt ci` kept of these crates; none where it keeps nothing."""
        return self.rt.Kept(list(self.crates.values())) if hasattr(self.rt, "Kept") else None

    def takes(self, kept, crate):
        """Whether the crate has a library of just these files now."""
        if kept is None:
            return self.is_own(crate)
        key = kept.key(crate)
        at, folder, mark = kept.place(crate, False, key), f"{crate.folder}/out/rlib", f"{crate.folder}/out/rlib/kept"
        if not os.path.isdir(at):
            if self.is_own(crate):
                kept.is_built(crate)
                return True
            return False
        if text_of(mark) != key:
            shutil.rmtree(folder, ignore_errors=True)
            with open(f"{at}/made.json") as file:
                made = json.load(file)["files"]
            for number, (path, _) in enumerate(made):
                os.makedirs(os.path.dirname(f"{crate.folder}/out/{path}"), exist_ok=True)
                self.rt.link_or_copy(f"{at}/{number}", f"{crate.folder}/out/{path}")
            with open(mark, "w") as file:
                file.write(key)
        kept.is_built(crate)
        return True

    def is_own(self, crate):
        """Whether bench/prove built the crate's library of just these files. One of other files is removed."""
        folder = f"{crate.folder}/out/rlib"
        is_own = os.path.isdir(crate.rlib) and text_of(f"{folder}/built") == self.sum_of(crate)
        if not is_own:
            shutil.rmtree(folder, ignore_errors=True)
        return is_own

    def sum_of(self, crate):
        """Of all that the crate's library is built of."""
        libraries = [text_of(f"{it.rlib}/format") or it.name for it in crate.below()]
        own = self.rt.own_sum(crate) if hasattr(self.rt, "own_sum") else crate.stamp()
        return self.lib.hashlib.sha256("\0".join([own, *libraries]).encode()).hexdigest()

    def check(self, crate, words, folder=None, **how):
        """Runs the checker on the crate, or on a copy of it in another folder."""
        return subprocess.run([self.lib.RATTLE, *words], cwd=folder or crate.folder, **how)

    def build(self, made, lanes=1):
        """Proves programs and static libraries over libraries that `rt ci` kept, once they are taken, and compiles them, some side by side: `made` has of each name
        the object, or the archive. Gives the names of the libraries that weren't kept; then nothing is built."""
        crates = [self.crates[name] for name in made]
        lacking = {it.name for crate in crates for it in crate.below() if not text_of(f"{it.folder}/out/rlib/kept")}
        if not lacking:
            # (its first call sets a signal's handler, which only the main thread may)
            self.lib.guarded()
            with concurrent.futures.ThreadPoolExecutor(lanes) as pool:
                list(pool.map(lambda crate: self.compile(crate, made[crate.name]), crates))
        return sorted(lacking)

    def compile(self, crate, to):
        """Has one of them proved and compiled; the verdict's line goes to the standard error."""
        with tempfile.TemporaryFile("w+") as crate.out:
            words = [*crate.words(["--jobs", "1"], keeps=False), "--toolchain", f"{self.rt.KIT}/toolchain", "--backend", "llvm", "-o", str(to)]
            status = crate.prove(["build", *words])
            crate.out.seek(0)
            said = crate.out.read().rstrip()
        if status:
            sys.exit(f"{said}\n{crate.name} isn't proved over what was kept")
        print(f"{crate.name}: {said.splitlines()[-1]}", file=sys.stderr, flush=True)

    def compiles(self, crate, folder):
        """What the checker says before any proof of this copy of the crate; nothing where it compiles."""
        built = all(os.path.isdir(it.rlib) for it in crate.below())
        words = ["check", *crate.words(["--jobs", "1", "--only", ""], keeps=False, as_source=not built)]
        ran = self.check(crate, words, folder, stdin=subprocess.DEVNULL, stdout=subprocess.PIPE, stderr=subprocess.STDOUT, errors="replace")
        return "" if re.search(r"^only=.*\n\Z", ran.stdout, re.M) else ran.stdout


def text_of(file):
    try:
        return pathlib.Path(file).read_text(errors="replace")
    except OSError:
        return ""
