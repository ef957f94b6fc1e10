"""What picture/look holds of the page on which scripts are run (tries.py): runs in the browser against the program, byte by byte, and what the page does."""
import concurrent.futures
import json
import os
import random
import re
import subprocess
import time

from tries import ROOT, examples

OUTCOME, CHECKED = "document.getElementById('outcome').textContent", "document.getElementById('checked').textContent"
# Runs in the page, in three workers: of each the status and all that is written.
WHOLE = """(async () => { await started;
  const asked = %s, told = [];
  window.crew ||= [0, 1, 2].map(() => new Runner(at('worker').textContent, runner.module));
  let next = 0;
  await Promise.all(crew.map(async (it) => { while (next < asked.length) {
    const place = next++, [words, script, memory] = asked[place], { status, out, err, failure } = await it.run({ words, script, memory, isWhole: true });
    told[place] = [failure === undefined ? status : failure, out, err];
  } }));
  return told; })()"""
# A statement without a KEY, a word that isn't one, and a name that is unknown.
REFUSED = "ranks 3\n0: allredcue world sum i32 1\n*: barrier wrold\n0: dup world -> a\n0: split world 1 -> b\n"


def holds(what, expected, got):
    if expected != got:
        raise AssertionError("%s: %r was expected, and there is %r" % (what, str(expected)[:400], str(got)[:400]))


def scripts():
    return {name: text for group in examples().values() for name, text in group}


def cases(many):
    """Each example's evaluation, and this number of runs over drawn networks."""
    drawn, texts = random.Random(7), scripts()
    names = sorted(texts)
    found = [(["eval", "--explain", "--strict"], texts[name]) for name in names]
    for number in range(many):
        name = names[number % len(names)]
        if name == "many" and number >= len(names):  # 64 ranks take a second, and the unproved program a minute
            name = "halves"
        options = ["--seed", str(drawn.randrange(1 << 32)), "--loss", str(drawn.choice([0, 10, 40, 70, 90, 100])), "--relays", str(drawn.choice([0, 0, 1, 3]) * (name != "many"))]
        turns = drawn.randrange(1, 40) if drawn.random() < 0.3 else 2000
        found.append((["run", *options, "--turns", str(min(turns, 12) if name == "many" else turns), "--trace", "--explain", "--workers", "1"], texts[name]))
    return found


class Program:
    """What the program writes: each call is made once, and several go side by side."""

    def __init__(self, path):
        self.path, self.pool, self.calls = path, concurrent.futures.ThreadPoolExecutor(len(os.sched_getaffinity(0))), {}

    def ask(self, words, script):
        key = (*words, script)
        if key not in self.calls:
            self.calls[key] = self.pool.submit(self.run, words, script)
        return self.calls[key]

    def run(self, words, script):
        ran = subprocess.run([self.path, *words], input=script.encode(), stdout=subprocess.PIPE, stderr=subprocess.PIPE)
        return [ran.returncode, ran.stdout.decode(), ran.stderr.decode()]

    def gives(self, words, script):
        return self.ask(words, script).result()


def page_gives(browser, asked):
    return browser.value(WHOLE % json.dumps([[["gossipmpi", *words], script, memory] for words, script, memory in asked]))


def hold_runs(browser, program, many):
    """Runs in the page write what the program writes: transcript, trace and explanations."""
    asked, traced = cases(many), 0
    for words, script in asked:
        program.ask(words, script)
    for begin in range(0, len(asked), 30):
        part = asked[begin:begin + 30]
        for (words, script), got in zip(part, page_gives(browser, [(words, script, 1024) for words, script in part])):
            holds(" ".join(words), program.gives(words, script), got)
            traced += got[2].count("\nturn ")
    for words, script in ((["run", "--relays", "62"], "ranks 3\n"), (["walk"], ""), (["run", "--threads"], "ranks 2\n*: barrier world\n"), (["check", "--explain"], REFUSED), (["eval", "--explain"], "")):
        got = page_gives(browser, [(words, script, 1024)])[0]
        if words[1:] != ["--threads"]:
            holds(" ".join(words), program.gives(words, script), got)
        else:
            assert got[0] != 0 and got[2], got
    return len(asked), traced


def long_script():
    """A script of one MB, less some bytes: two ranks, and many items a line."""
    line = "*: allreduce world sum i64 %s\n" % " ".join(["1234567"] * 1000)
    return "ranks 2\n" + line * ((1048576 - 8) // len(line))


def hold_long(browser, program):
    script = long_script()
    assert 1040000 < len(script) <= 1048576
    for words in (["eval"], ["run", "--loss", "40"]):
        holds("1 MB, " + words[0], program.gives(words, script), page_gives(browser, [(words, script, 2048)])[0])
    return len(script)


def until(browser, what, text, seconds=120):
    """Waits until an expression is true in the page."""
    begun = time.time()
    while not browser.value(text):
        if time.time() - begun > seconds:
            raise AssertionError("%s: not after %d s; the page says %r" % (what, seconds, browser.value(OUTCOME)))
        time.sleep(0.05)


def choose(browser, name):
    browser.value("(() => { const it = document.getElementById('example'); it.value = '%s'; it.dispatchEvent(new Event('change')); })()" % name)


def type_script(browser, text):
    browser.value("(() => { const it = document.getElementById('text'); it.focus(); it.value = %s; it.dispatchEvent(new Event('input')); })()" % json.dumps(text))


def finished(browser):
    until(browser, "a run", "runs.count > 0 && !runner.ask && document.getElementById('stop').getAttribute('aria-disabled') === 'true'")


def hold_opening(browser, path):
    """The page opens with an example that has run, at its first turn."""
    seconds = browser.open(path)
    until(browser, "the program", "runner !== null")
    finished(browser)
    holds("first outcome", "All ranks finish after 5 turns.", browser.value(OUTCOME))
    holds("turns beneath", [False, 1, 5], browser.value("[document.getElementById('view').hidden, view.turn, view.run.last]"))
    holds("lines", ["9 12"] * 3, browser.value("[...document.querySelectorAll('#lines code')].map((it) => it.textContent)"))
    assert browser.value("document.getElementById('as-command').textContent") == "gossipmpi run --seed 27 --loss 40 --explain < three_ranks.job"
    return seconds


def hold_marks(browser, program):
    """Refused lines are marked, with what --explain says."""
    type_script(browser, REFUSED)
    until(browser, "marks", "document.querySelectorAll('#problems li').length === 3")
    holds("marked lines", [2, 3, 5], browser.value("[...editor.marks.keys()]"))
    said = program.gives(["eval", "--explain"], REFUSED)[2].splitlines()
    expected = [re.sub(r"^script line \d+: |^  ", "", line) for line in said]
    holds("what is said", expected, browser.value("[...editor.marks.values()].flatMap(({ texts }) => texts)"))
    holds("numbers", ["2", "3", "5"], browser.value("[...document.querySelectorAll('.numbers .refused')].map((it) => it.textContent)"))
    assert browser.value(CHECKED) == "3 lines refused.", browser.value(CHECKED)
    assert browser.value("document.getElementById('far').textContent").startswith("You changed the script"), "what is shown came of another script"
    browser.value("document.querySelector('#problems li:last-child button').click()")
    holds("line of the caret", 5, browser.value("editor.line"))


def hold_waits(browser):
    """Why a script waits: the explanation's lines lead to those of the script."""
    choose(browser, "deadlock")
    finished(browser)
    holds("outcome", "Ranks 0 to 2 wait after 14 turns, and in every run.", browser.value(OUTCOME))
    assert "waits for rank 1 (at line 7)" in browser.value("document.getElementById('explained').textContent")
    browser.value("[...document.querySelectorAll('#explained button')].find((it) => it.textContent === 'line 7').click()")
    holds("line of the caret", [7, "text"], browser.value("[editor.line, document.activeElement.id]"))
    holds("what holds the run up", "Ranks 0 to 2 wait for each other: a deadlock.", browser.value("document.getElementById('held').textContent"))


def hold_link(browser, path):
    """A link opens the script, its options and the turn."""
    script = "# One's own.\nranks 2\n*: allreduce world sum i32 7\n"
    type_script(browser, script)
    browser.value("(() => { for (const [name, value] of [['seed', '9'], ['loss', '30'], ['relays', '1']]) document.getElementById(name).value = value; })()")
    browser.value("run()")
    finished(browser)
    browser.value("view.goTo(2)")
    until(browser, "an address", "location.hash.includes('turn=2')")
    address, outcome = browser.value("location.hash"), browser.value(OUTCOME)
    browser.open(path + address)
    until(browser, "the program", "runner !== null")
    finished(browser)
    holds("what a link opens", [script, "9", "30", "1", 2], browser.value("[editor.text, ...['seed', 'loss', 'relays'].map((name) => document.getElementById(name).value), view.turn]"))
    holds("its outcome", outcome, browser.value(OUTCOME))
    browser.open(path + "#script=nonsense")
    until(browser, "an answer", OUTCOME + ".startsWith(\"The address can't be read\")")


def hold_stop(browser, path):
    """A run that takes long says how far it is, and can be stopped; the next one runs."""
    browser.open(path + "#example=three_ranks")
    until(browser, "the program", "runner !== null")
    finished(browser)
    type_script(browser, "ranks 24\n" + "*: barrier world\n" * 300)
    browser.value("(() => { document.getElementById('loss').value = '97'; run(); })()")
    until(browser, "how far it is", "/^Running for [0-9]+ s: turn [0-9]+/.test(document.getElementById('far').textContent)")
    browser.value("document.getElementById('stop').click()")
    finished(browser)
    assert re.match(r"Stopped in turn \d+\. What came until then is shown\.", browser.value(OUTCOME)), browser.value(OUTCOME)
    assert browser.value("view.run.last") > 0
    choose(browser, "three_ranks")
    browser.value("(() => { document.getElementById('loss').value = ''; run(); })()")
    finished(browser)
    assert browser.value(OUTCOME).startswith("All ranks finish after "), browser.value(OUTCOME)


def hold_memory(browser):
    """Where 64 MB aren't enough, the page says so."""
    type_script(browser, "ranks 64\n" + "*: iallgather world i64 %s -> r\n*: wait r\n" % " ".join(["1"] * 64) + "*: allreduce world sum i64 %s\n" % " ".join(["7"] * 4096))
    browser.value("(() => { document.getElementById('memory').value = '64'; document.getElementById('loss').value = '60'; run(); })()")
    finished(browser)
    holds("out of memory", "Out of memory: this needs more than 64 MB. Memory above is what it may have.", browser.value(OUTCOME))
    browser.value("(() => { document.getElementById('memory').value = '64 GB'; run(); })()")
    holds("memory that is no number", "Memory is a number from 1 to 4000, in MB.", browser.value(OUTCOME))


def hold_keys(browser, path):
    """Keys in the editor: Tab completes or leads on, F8 goes to marked lines, and Control and Enter run."""
    browser.open(path + "#example=three_ranks")
    until(browser, "the program", "runner !== null")
    finished(browser)
    type_script(browser, "ranks 2\n*: barr")
    browser.press("Tab")
    holds("completed", ["ranks 2\n*: barrier", "text"], browser.value("[editor.text, document.activeElement.id]"))
    browser.press("Tab")
    assert browser.value("document.activeElement.id") != "text"
    type_script(browser, REFUSED)
    until(browser, "marks", "editor.marks.size === 3")
    browser.press("F8")
    holds("the next marked line", 2, browser.value("editor.line"))
    count = browser.value("runs.count")
    browser.press("Control+Enter")
    holds("a run by keys", count + 1, browser.value("runs.count"))
    finished(browser)
    assert browser.value(OUTCOME).startswith("The script is refused: line 2: UnknownStatement"), browser.value(OUTCOME)


def hold_sizes(browser, path, hold_contrast):
    """Nothing is cut off beside the page, in narrow and wide windows; texts have contrast, in dark and light."""
    for wide in (400, 1280):
        for is_dark in (False, True):
            browser.open(path + "#example=mismatch", wide=wide, dark=is_dark)
            until(browser, "the program", "runner !== null")
            finished(browser)
            until(browser, "marks", "editor.marks.size > 0")
            across, inner = browser.value("[document.documentElement.scrollWidth, innerWidth]")
            assert across <= inner, (wide, across, inner)
            hold_contrast(browser)
            named = browser.value("[...document.querySelectorAll('main input, main select, main textarea, main button')].every((it) => it.labels && it.labels.length || it.textContent.trim() || it.getAttribute('aria-label'))")
            assert named, "a control without a name"


def hold_lacking(browser, path):
    """A browser that lacks what the page needs gets a sentence that names those that have it."""
    added = browser.ask("Page.addScriptToEvaluateOnNewDocument", source="delete window.DecompressionStream")["identifier"]
    browser.open(path)
    until(browser, "a sentence", OUTCOME + ".startsWith('This browser lacks what the page needs. Chrome')")
    browser.ask("Page.removeScriptToEvaluateOnNewDocument", identifier=added)


def hold_try(browser, path, program, many, hold_contrast):
    """All of these, in Chromium."""
    seconds = hold_opening(browser, path)
    runs, lines = hold_runs(browser, program, many)
    size = hold_long(browser, program)
    hold_marks(browser, program)
    hold_waits(browser)
    hold_link(browser, path)
    hold_stop(browser, path)
    hold_memory(browser)
    hold_keys(browser, path)
    hold_sizes(browser, path, hold_contrast)
    hold_lacking(browser, path)
    holds("errors", [], browser.errors)
    print("try: opened in %.2f s; %d runs and %d lines of traces as the program's, and a script of %d bytes; %d bytes" % (seconds, runs, lines, size, os.path.getsize(path)), flush=True)


def hold_in_firefox(browser, path, program, many):
    """The page opens in Firefox, and runs there as the program does."""
    hold_opening(browser, path)
    runs, lines = hold_runs(browser, program, many)
    hold_marks(browser, program)
    hold_waits(browser)
    hold_link(browser, path)
    hold_stop(browser, path)
    hold_memory(browser)
    hold_keys(browser, path)
    # (Firefox itself logs that a link was cut off)
    holds("errors", [], [it for it in browser.errors if "input data is corrupted" not in it])
    print("try in Firefox: %d runs and %d lines of traces as the program's" % (runs, lines), flush=True)
