"""The stored rows of crates/job_rows, as the library has to answer them."""
import pathlib
import re

TOP = pathlib.Path(__file__).resolve().parent.parent
# Rows whose scripts are made of pieces are passed over: a script of a megabyte takes seconds.
PLAIN, AGAIN, PIECES = b"> ", b">> ", b">* "


class Row:
    """A row's words, its script, and what the program printed on both streams, with its status."""

    def __init__(self, words, script, said, status):
        self.words, self.script, self.said, self.status = words, script, said, status


def scripts(text):
    """Of each row its own line, and its script; None where that is made of pieces."""
    rows, script = [], []
    for line in text.split(b"\n"):
        if not line.startswith((PLAIN, AGAIN, PIECES)):
            if script is not None:
                script.append(line)
            continue
        if not line.startswith(AGAIN):
            script = [] if line.startswith(PLAIN) else None
        rows.append((line, script))
    return [(line, None if script is None else b"\n".join(script)) for line, script in rows]


def rows():
    """The rows of scripts that stand there as they are."""
    folder = TOP / "crates" / "job_rows"
    asked, told = scripts((folder / "stdin").read_bytes()), (folder / "stdout").read_bytes().split(b"\n")
    found, at, last = [], 0, (b"", 0)
    for line, script in asked:
        if told[at] != line:
            raise SystemExit(f"job_rows: line {at + 1} of stdout is {told[at][:60]!r}, and not {line[:60]!r}")
        begin = at = at + 1
        while not re.search(rb"(?:^|\r\x1b\[K)= (\d+|as above)$", told[at]):
            at += 1
        if not told[at].endswith(b"as above"):
            last = b"".join(it + b"\n" for it in told[begin:at]), int(told[at].rpartition(b" ")[2])
        at += 1
        while at < len(told) and told[at].startswith(b"process "):
            at += 1
        if script is not None:
            found.append(Row(line.split()[1:], script, *last))
    return found


def without(text, beginning):
    return text[len(beginning):] if text.startswith(beginning) else None


def differs(row, answers):
    """How the library's answers differ from a row: nothing where they don't, None where the row says nothing of them. `answers` gives a status and a text by a name."""
    options = [it for it in row.words[1:]]
    if row.words[:1] == [b"check"] and not options and row.status in (0, 2):
        status, text = answers("check")
        wanted = b"" if row.status == 0 else row.said.partition(b"\n")[0]
        return "" if (status, text) == (row.status, wanted) else f"check: {status} {text[:200]!r}, and not {row.status} {wanted[:200]!r}"
    if row.words[:1] == [b"eval"] and options in ([], [b"--explain"]) and row.status in (0, 2, 3):
        return of_eval(row, answers, options == [b"--explain"])
    if row.words[:1] == [b"run"]:
        return of_run(row, answers, options)
    return None


def of_run(row, answers, options):
    """A run in threads has the lines of the evaluation; a simulated one has a call of its own."""
    if any(it.startswith(b"--threads") for it in options):
        if row.status != 0 or {b"--explain"} & {*options}:
            return None
        status, text = answers("eval")
        return "" if (status, text) == (0, row.said) else f"run: {status} {text[:200]!r}, and not {row.said[:200]!r}"
    words = b" ".join(options)
    (status, text), (again, said) = answers("run", words), answers("run_says", words)
    # The row has both streams, each whole.
    same = (status, again) == (row.status, row.status) and row.said in (text + said, said + text)
    return "" if same else f"run: {status} {text[:200]!r} {said[:200]!r}, and not {row.status} {row.said[:400]!r}"


def of_eval(row, answers, explains):
    status, text = answers("explain" if row.status == 2 and explains else "eval")
    if status != row.status:
        return f"eval: status {status}, and not {row.status}"
    if row.status == 2:
        wanted = row.said if explains else row.said.partition(b"\n")[0]
        return "" if text == wanted else f"eval: {text[:200]!r}, and not {wanted[:200]!r}"
    left = without(row.said, text)
    if left is None:
        return f"eval: {text[:200]!r}, and not {row.said[:200]!r}"
    if row.status == 3:
        # the message, and with --explain the cause
        left = b"".join(left.splitlines(True)[2 if explains else 1:])
    more = answers("explain")[1] if explains else b""
    return "" if left == more else f"explain: {more[:300]!r}, and not {left[:300]!r}"
