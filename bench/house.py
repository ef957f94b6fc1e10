#!/usr/bin/env python3
"""Draws the house: the twelve rooms of crates.txt, the crates in each, and the way of one allreduce through them. `bench/pages` runs this.

    bench/house.py            checks; exit status 1 where something differs
    bench/house.py --write    writes docs/house.svg, and the table of rooms in docs/ARCHITECTURE.md
    bench/house.py --crates   the crates by rooms, each with what it says of itself
    bench/house.py --seen     runs one allreduce of one and of three ranks by out/look/gossipmpi under valgrind, and says which crates' code it entered

It checks that each crate stands in a room, and on crates above it in crates.txt alone; that the crates of the way below are there; and
that the picture and the table are what it would write. Where a crate comes or goes, --write is enough.

Of the way, which crates are entered is what --seen says (1 December 2026, 46fd2e79): the program of bench/look keeps each function apart. Of join_core a
run without a frame enters only what drops its values."""
import html
import pathlib
import re
import shutil
import subprocess
import sys
import tempfile

ROOT = pathlib.Path(__file__).resolve().parent.parent
PAGE, PICTURE = ROOT / "docs" / "ARCHITECTURE.md", ROOT / "docs" / "house.svg"
BEGIN, END = "<!-- bench/house.py writes this table -->\n", "<!-- until here -->\n"

# The crates whose code control enters in a run of one allreduce, and those besides where a frame carries its posts.
ENTERED = """gossipmpi mpx_words mpx_affine mpx_num mpx_program mpx_run mpx_script mpx_statement mpx_kind mpx_post mpx_sim mpx_node
mpx_board mpx_floor mpx_bus mpx_birth mpx_name mpx_group mpx_format join_nest join_core mpx_rank mpx_value mpx_match mpx_fold mpx_meaning""".split()
FRAMED = "mpx_delta mpx_digest mpx_encode mpx_rope mpx_wire mpx_decode".split()


def rooms(text):
    """The rooms of crates.txt: of each its name, what it is about, and its crates with what they stand on."""
    found, faults, above = [], [], set()
    for line in text.splitlines():
        head = re.match(r"# (\d+) ([\w ]+): (.*)", line)
        if head:
            found.append((head[2], head[3], {}))
            faults += [f"room {head[1]} is the {len(found)}th"] if int(head[1]) != len(found) else []
        elif line.strip() and not line.startswith("#"):
            crate, _, uses = line.partition(":")
            crate = crate.split()[0]
            if not found:
                return found, [f"{crate} stands in no room"]
            found[-1][2][crate] = ours = [it for it in uses.split() if (ROOT / "crates" / it).is_dir()]
            faults += [f"{crate} stands above {it}, on which it stands" for it in ours if it not in above]
            above.add(crate)
    return found, faults


def levels(found):
    """How many crates the longest chain has that ends in a crate."""
    deep = {}
    for _, _, crates in found:
        for crate, uses in crates.items():
            deep[crate] = 1 + max((deep[it] for it in uses if it in deep), default=0)
    return deep


def first_line(crate):
    """What the crate says of itself: the first sentence of its first file."""
    file = next((it for it in (ROOT / "crates" / crate / "src" / name for name in ("lib.rt", "main.rt")) if it.exists()), None)
    lines = re.match(r"(?://!.*\n)+", file.read_text()) if file else None
    text = " ".join(line[3:].strip() for line in lines[0].splitlines()) if lines else ""
    return re.split(r"(?<=[.])\s", re.sub(r"[`\[\]]", "", text))[0]


def table(found):
    """The rooms with their crates."""
    rows = [f"| {at} {name}: {what} | {' '.join(f'[{crate}](../crates/{crate}/README.md)' for crate in crates)} |" for at, (name, what, crates) in enumerate(found, 1)]
    return "\n".join(["| Room | Crates |", "|---|---|", *rows]) + "\n"


WIDE, TALL, LEFT, LETTER = 1180, 60, 190, 7.4


def boxes(found):
    """Each crate's place: its left and upper corner, and its width. Rooms stand from the bottom up, a long one in two rows."""
    places, tops, y = {}, [], 20
    for _, _, crates in reversed(found):
        x, top = LEFT, y
        for crate in crates:
            width = LETTER * len(crate.replace("mpx_", "")) + 30
            if x + width > WIDE - 20:
                x, y = LEFT, y + TALL - 18
            places[crate] = x, y + 10, width
            x += width + 12
        y += TALL
        tops.append((top, y))
    return places, list(reversed(tops)), y


def picture(found):
    places, tops, end = boxes(found)
    deep = levels(found)
    out = [f'<svg xmlns="http://www.w3.org/2000/svg" viewBox="0 0 {WIDE} {end + 84}" font-family="Helvetica, Arial, sans-serif" font-size="13">']
    out.append('<title>The rooms of gossipmpi, its crates, and the way of one allreduce</title>')
    out.append(f'<rect width="{WIDE}" height="{end + 84}" fill="white"/>')
    for at, ((name, _, _), (top, low)) in enumerate(zip(found, tops), 1):
        out.append(f'<rect x="8" y="{top + 2}" width="{WIDE - 16}" height="{low - top - 4}" rx="4" fill="{"#f4f4f0" if at % 2 else "#ecebe4"}"/>')
        out.append(f'<text x="20" y="{top + 32}" font-weight="bold">{at}  {html.escape(name)}</text>')
    for crate, (x, y, width) in places.items():
        fill, edge, ink = ("#2f5d8a", "#2f5d8a", "white") if crate in ENTERED else ("#cfe0f0", "#2f5d8a", "#12283d") if crate in FRAMED else ("white", "#a8a69a", "#3a3932")
        out.append(f'<g><title>{html.escape(f"{crate}: {first_line(crate)}")}</title><rect x="{x:.0f}" y="{y}" width="{width:.0f}" height="30" rx="5" fill="{fill}" stroke="{edge}"/>')
        out.append(f'<text x="{x + 8:.0f}" y="{y + 20}" fill="{ink}">{crate.replace("mpx_", "")}</text><text x="{x + width - 5:.0f}" y="{y + 11}" font-size="8" text-anchor="end" fill="{ink}">{deep[crate]}</text></g>')
    told = [
        ("#2f5d8a", f"{len(ENTERED)} crates that a run of one allreduce enters"),
        ("#cfe0f0", f"{len(FRAMED)} more where a frame carries its posts, {len(ENTERED) + len(FRAMED)} in all"),
        ("white", "crates that it doesn't enter. The small number: how many crates the longest chain below and with it has"),
    ]
    for at, (fill, words) in enumerate(told):
        out.append(f'<rect x="20" y="{end + 8 + 24 * at}" width="22" height="14" rx="3" fill="{fill}" stroke="#2f5d8a"/><text x="52" y="{end + 20 + 24 * at}">{words}</text>')
    out.append('</svg>')
    return "\n".join(out) + "\n"


def seen(program, ranks):
    """The crates whose functions a run of one allreduce enters."""
    script = f"ranks {ranks}\n*: allreduce world sum i64 1\n"
    with tempfile.TemporaryDirectory() as room:
        words = ["valgrind", "--tool=callgrind", f"--callgrind-out-file={room}/out", str(program), "run", "--workers", "1"]
        subprocess.run(words, input=script, stdout=subprocess.DEVNULL, stderr=subprocess.DEVNULL, universal_newlines=True, check=True)
        text = (pathlib.Path(room) / "out").read_text()
    names = {}
    for number, name in re.findall(r"^c?fn=\((\d+)\)(?: (.*))?$", text, re.M):
        names[number] = name or names[number]
    return {crate for name in names.values() for crate in re.findall(r"^(\w+)::", name) + re.findall(r"^\w+::(\w+)\+\+\w+\+\+.*Destruct", name)}


def differs():
    """Where the way isn't what is seen."""
    program = ROOT / "out" / "look" / "gossipmpi"
    if not program.exists() or not shutil.which("valgrind"):
        yield "--seen wants out/look/gossipmpi, which bench/look builds, and valgrind"
        return
    crates = {crate for _, _, ours in rooms((ROOT / "crates.txt").read_text())[0] for crate in ours}
    for ranks, told in ((1, {*ENTERED}), (3, {*ENTERED, *FRAMED})):
        entered = seen(program, ranks) & crates
        yield from (f"{crate} is entered by {ranks} ranks, and isn't told" for crate in sorted(entered - told))
        yield from (f"{crate} is told, and isn't entered by {ranks} ranks" for crate in sorted(told - entered))


def main(words):
    found, faults = rooms((ROOT / "crates.txt").read_text())
    crates = {crate for _, _, crates in found for crate in crates}
    faults += [f"{crate} is on the way, and isn't in crates.txt" for crate in [*ENTERED, *FRAMED] if crate not in crates]
    if words == ["--crates"]:
        print("\n".join(f"{crate:18} {first_line(crate)}" for _, _, crates in found for crate in crates))
        return 0
    faults += differs() if words == ["--seen"] else []
    if faults:
        print("\n".join(faults))
        return 1
    page = PAGE.read_text()
    before, _, rest = page.partition(BEGIN)
    _, _, behind = rest.partition(END)
    whole = before + BEGIN + table(found) + END + behind
    if words == ["--write"]:
        PAGE.write_text(whole)
        PICTURE.write_text(picture(found))
    faults += [] if PAGE.read_text() == whole else ["docs/ARCHITECTURE.md has other rooms than crates.txt: bench/house.py --write"]
    faults += [] if PICTURE.exists() and PICTURE.read_text() == picture(found) else ["docs/house.svg is another picture: bench/house.py --write"]
    print("\n".join([*faults, f"{len(found)} rooms, {len(crates)} crates, {max(levels(found).values())} levels; {len(faults)} faults"]))
    return 1 if faults else 0


if __name__ == "__main__":
    sys.exit(main(sys.argv[1:]))
