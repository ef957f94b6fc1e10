"""Builds the program of bench/starved, whose trials `bench/starve --trials` runs: unproved, in out/starved, where a source has changed since."""
import os
import re
import sys

import module_text
import unproved
from unproved import ROOT, Stop

SOURCES, FOLDER = ROOT / "bench" / "starved", ROOT / "out" / "starved"


def names():
    """The trials, as main.trial tells them apart."""
    return re.findall(r'^ +"(\w+)" =>', (SOURCES / "main.trial").read_text(), re.M)


def make(kit, uses, files, out):
    room = unproved.Room(lambda line: print(line, file=sys.stderr, flush=True))
    unproved.has_room(room.folder)
    tree = unproved.laid_out(room.folder / "tree", "starved", uses, {file.stem: file for file in files})
    module = module_text.Module(unproved.read(room, kit, tree, "starved"))
    unproved.build(room, kit, out, module.write(room.folder, len(os.sched_getaffinity(0))), "-O0")
    room.say(f"built, in {unproved.processor_seconds():.0f} seconds of one processor")
    room.close()


def program():
    """The program of the files at hand. It stands on the crates that its files name."""
    try:
        return up_to_date()
    except Stop as why:
        sys.exit(f"starve: {why}")


def up_to_date():
    kit, listed, out, stamp = unproved.toolchain(), unproved.needs(ROOT), FOLDER / "starved", FOLDER / "sources"
    files = sorted(SOURCES.glob("*.trial"))
    text = "\n".join(file.read_text() for file in files)
    uses = [crate for crate in listed if f"\nuse {crate}::" in text]
    below = {name for crate in uses for name in [crate, *unproved.below(listed, crate)[0]]}
    FOLDER.mkdir(parents=True, exist_ok=True)
    now = unproved.sources(kit, below, [*files, ROOT / "bench" / "starved.py"])
    if not (out.is_file() and stamp.is_file() and stamp.read_text() == now):
        make(kit, uses, files, out)
        stamp.write_text(now)
    return out
